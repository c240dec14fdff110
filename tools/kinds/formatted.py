"""Code in the layout of `rt fmt`."""
import os
import subprocess
import tempfile

from .blocks import BadTable

# the formatted texts, by their unformatted ones
LAID = {}


def lay(texts):
    """Formats texts of code, in a crate of their own."""
    with tempfile.TemporaryDirectory() as top:
        folder = os.path.join(top, 'crates', 'laid')
        os.makedirs(os.path.join(folder, 'src'))
        files = {os.path.join(folder, 'src', 'laid%d.rt' % n): text for n, text in enumerate(texts)}
        for name, text in ((os.path.join(top, 'crates.txt'), 'laid:\n'), (os.path.join(folder, 'src', 'lib.rt'), ''), *files.items()):
            with open(name, 'w', encoding='utf-8') as f:
                f.write(text)
        done = subprocess.run(['rt', 'fmt'], cwd=folder, stdout=subprocess.PIPE, stderr=subprocess.STDOUT, text=True, check=False)
        if done.returncode:
            raise BadTable('rt fmt refuses what it makes: ' + done.stdout.strip())
        for name, text in files.items():
            with open(name, encoding='utf-8') as f:
                LAID[text] = f.read()


def laid(files):
    """Returns files of code by their names, each as lines, in the layout of `rt fmt`."""
    texts = {name: '\n'.join(lines) for name, lines in files.items()}
    missing = [it for it in dict.fromkeys(texts.values()) if it not in LAID]
    if missing:
        lay(missing)
    return {name: LAID[text].split('\n') for name, text in texts.items()}
