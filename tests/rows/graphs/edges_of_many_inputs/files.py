from lib.row_files import in_files, listed

makers = [f"build {number}: phony\n" for number in range(1000)]
users = [f"build e{number}: phony {listed(1000)}\n" for number in range(1000)]
in_files([*users, *makers, "build made: r\n"])
