from lib.row_files import chain

chain("subninja", 64, "")
