"""What the wrapper's shell calls, as `python3 tools WORD..`, which finds the modules by the folder."""
from lib import front

front.run()
