"""What the scripts around abuf share: images, the program, scenes, and how a script reports.

    pam       images: reading and writing PAM, PPM and PNG
    program   finding and running abuf
    scene     numbers, lines and values as docs/FORMATS.md reads them
    report    what a script prints, and the status in which it ends
"""
