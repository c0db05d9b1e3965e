from lib.row_files import in_files

in_files([*(f"build {number}: phony {number + 1}\n" for number in range(10**6)), "build made: r 0\n"])
