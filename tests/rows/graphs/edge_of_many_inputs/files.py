from lib.row_files import in_files, listed

in_files([*(f"build {number}: phony\n" for number in range(10**5)), f"build made: r {listed(10**5)}\n"])
