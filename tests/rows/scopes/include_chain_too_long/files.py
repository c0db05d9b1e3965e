from lib.row_files import chain

chain("include", 64, "")
