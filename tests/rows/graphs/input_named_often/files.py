from lib.row_files import in_files

in_files(["build made: r" + " a" * 10**5 + "\n", "build a: phony\n"])
