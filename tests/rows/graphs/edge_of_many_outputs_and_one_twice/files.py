from lib.row_files import in_files, listed

in_files([f"build {listed(10**5)} made: r\n", "build made: r\n"])
