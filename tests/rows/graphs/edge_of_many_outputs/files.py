from lib.row_files import in_files, listed

in_files([f"build {listed(10**5)}: phony\n", f"build made: r {listed(10**5)}\n"])
