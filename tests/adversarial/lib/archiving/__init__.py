"""Archives of two servers' volumes, drawn by the second implementation, and asked of the desk."""
import sys
from pathlib import Path

sys.path.append(str(Path(__file__).resolve().parents[4] / "reference"))
