from lib.row_files import edges, in_files

in_files([*edges(2**20 - 1), "build made: r\n"])
