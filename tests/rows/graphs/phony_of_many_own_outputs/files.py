from lib.row_files import in_files, listed

in_files([f"build {listed(10**5)}: phony {listed(10**5)}\n", "build made: r 0\n"])
