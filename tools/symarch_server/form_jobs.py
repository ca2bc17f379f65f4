"""Forms, as browsers send a report. They are taken apart in a worker, since a hostile one takes long."""
from __future__ import annotations

import os
import shutil
import sys
from typing import List

from .control import Members

# What stands in a form besides files is held in memory.
MOST_IN_MEMORY, MOST_PARTS = 16_000_000, 20


def form(job: Members, _: List[int]) -> Members:
    """Puts the file of a form, or else its first text, into a file of the room. The form is a file of the room too."""
    # A worker begins without the folders of libraries.
    sys.path.extend(one for one in job["libraries"] if one not in sys.path)
    from werkzeug.exceptions import HTTPException
    from werkzeug.wrappers import Request

    with open(job["name"], "rb") as body:
        length = str(os.fstat(body.fileno()).st_size)
        about = {"REQUEST_METHOD": "POST", "CONTENT_TYPE": job["content_type"], "CONTENT_LENGTH": length}
        request = Request({**about, "wsgi.input": body})
        request.max_form_memory_size, request.max_form_parts = MOST_IN_MEMORY, MOST_PARTS
        try:
            with open(job["to"], "xb") as written:
                file = next((one for one in request.files.values() if one.filename), None)
                text = next((one for one in request.form.values() if one.strip()), None)
                if file is not None:
                    shutil.copyfileobj(file.stream, written)
                elif text is not None:
                    written.write(text.encode(errors="replace"))
        except HTTPException as error:
            return {"status": 3, "code": error.code, "bad": (error.name or "").lower()}
        except (LookupError, ValueError):
            return {"status": 3, "code": 400, "bad": "the form cannot be read"}
    if file is None and text is None:
        return {"status": 3, "code": 400, "bad": "there is no report: choose a file, or paste one"}
    return {"status": 0, "file_name": file.filename if file is not None else None}
