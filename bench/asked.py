"""What is asked of archives: images with symbols among others without, and frames of them."""
import io
import random
import struct

from images import FUNCTION, IMAGE_SIZE, SYMBOLS, TEXT, admission, admission_front, image
from measure import HEADER, LC_UUID, write_image

MANY = 20_000


def plain_image(number):
    """An image without symbols, as long as the others."""
    random.seed(number)
    file = io.BytesIO()
    write_image(file, IMAGE_SIZE, number.to_bytes(16, "big"))
    return file.getvalue()


def record_of(number, asked):
    return admission(number, image(number) if number in asked else plain_image(number))


def write_hollow_archive(path, count, asked, made=image):
    """Writes an archive of so many images, of which those that are asked for, by their numbers, are made. Behind their
    headers the others are holes of the file, so they take no room on the disk."""
    with path.open("wb") as file:
        file.write(b"MSYMARC2")
        for number in range(count):
            if number in asked:
                file.write(admission(number, made(number)))
                continue
            front = HEADER + LC_UUID + number.to_bytes(16, "big")
            file.write(admission_front(number, IMAGE_SIZE) + front)
            file.seek(IMAGE_SIZE - len(front), 1)
        file.write(b"\x03" + struct.pack(">Q", count))


def write_frames(path, numbers):
    """A file of frames of these images in turn."""
    asked = [(numbers[place % len(numbers)], random.randrange(SYMBOLS * FUNCTION)) for place in range(MANY)]
    lines = (f"{number.to_bytes(16, 'big').hex()} x86_64 - {TEXT + offset:#x}\n" for number, offset in asked)
    path.write_text("".join(lines))
    return path
