"""A desk for the balise plan of a line, over the proved engine `baliseplan`.

The desk never makes a plan. Every byte of a plan or journal that it writes is what the engine printed.
"""

VERSION = "0.2.0"
