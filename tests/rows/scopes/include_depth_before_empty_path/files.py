from lib.row_files import chain

chain("include", 63, "include $none\n")
