from lib.row_files import image_of_one_body

image_of_one_body("plan.img", 1_025)
