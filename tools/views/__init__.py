"""What the tools that look at runs share: reading scenes and journals, following a journal, the program, pictures, drawings.

`texts`, `scene` and `journal` read the two texts, `stack` and `course` follow a journal over its scene, `program` asks the
program for verdicts and pictures, `pictures` and `svg` write what is drawn, and `command` is what a tool's `main` does.
"""
