from lib.row_files import chain

chain("subninja", 63, "rule r\n  command = true\nbuild a: r\n")
