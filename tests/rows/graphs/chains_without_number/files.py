from lib.row_files import in_files

# each edge waits for both edges of the next row
rows = range(10**4)
in_files([*(f"build {name}{row}: phony a{row + 1} b{row + 1}\n" for row in rows for name in "ab"), "build made: r a0\n"])
