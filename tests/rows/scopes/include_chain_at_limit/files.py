from lib.row_files import chain

chain("include", 63, "rule r\n  command = true\nbuild a: r\n")
