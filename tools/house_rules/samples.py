"""What the tests of house_rules write small repositories with."""
import os


def write(root, path, text):
    """Writes a file of a repository."""
    path = os.path.join(root, path)
    os.makedirs(os.path.dirname(path), exist_ok=True)
    with open(path, "w", encoding="utf-8") as file:
        file.write(text)
