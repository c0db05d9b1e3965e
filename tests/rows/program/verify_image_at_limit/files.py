from lib.row_files import image_of_bytes

image_of_bytes("plan.img", 268_435_456)
