from lib.row_files import in_files, listed

in_files([f"build {listed(10**5)}: phony\n", "build made: r\n", f"default {listed(10**5)}\n"])
