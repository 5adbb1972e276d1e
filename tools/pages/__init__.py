"""What tools/draw and tools/report are made of: the program asked, its texts read, pictures by Graphviz, and the page.

Nothing in this folder judges a schema or an instance: every answer is one that the program gave.
"""
