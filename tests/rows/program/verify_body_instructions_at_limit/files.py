from lib.row_files import image_of_bodies

image_of_bodies("plan.img", 256)
