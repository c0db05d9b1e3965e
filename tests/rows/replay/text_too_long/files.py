from lib.row_files import image

image("plan.img", f"text {'x' * 1048576}\ntext y\nfile a\nedge command label 1\n  Text 0\n  Text 1\n  Join\n  Drop\n  End\ndefault 0\n")
