"""The parts of `tools/to_lines.py`, which states the rules. Each module has one idea:

names        the name that an id gets
moments      the moment that a date is
report       what is told on standard error
sources      which kind of file bytes are
trees        whole numbers, depth and texts of a JSON tree
regions      the region that a fragment says
targets      what an annotation is about
bodies       what an annotation says
annotations  an annotation, mended
manifests    a manifest, mended, and its canvases
checks       what the server would refuse all the same
ocr          pages of lines of text, and their canvases
alto, hocr   these pages in files of ALTO and of hOCR
lines        the lines that are written, in the order of their moments
converter    which part does what with each file
"""
