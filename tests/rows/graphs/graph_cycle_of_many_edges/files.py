from lib.row_files import in_files

in_files(f"build {number}: r {(number + 1) % 10**5}\n" for number in range(10**5))
