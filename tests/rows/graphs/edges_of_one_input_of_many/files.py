from lib.row_files import in_files

in_files([*(f"build {number}: phony made\n" for number in range(10**5)), "build made: r\n"])
