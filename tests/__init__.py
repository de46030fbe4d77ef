"""The tests, in folders by subject. From the top of the repository
`python3 -m unittest discover -s tests -t .` finds them; CONTRIBUTING.md says what runs them."""
import sys
from pathlib import Path

TOP = Path(__file__).absolute().parent.parent
# The packages of the Python programs, of the build and of what is installed can be imported.
sys.path[1:1] = [str(TOP / "python"), str(TOP), str(TOP / "packaging")]
sys.dont_write_bytecode = True
