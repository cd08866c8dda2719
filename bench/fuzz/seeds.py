"""seeds.py OUT FOLDER..: puts the inputs of the folders into OUT/seeds, with `A` before those that are run with the audit, and the words of
their documents and steps into OUT/words.dict. `run` calls it."""
import os, re, shutil, sys

AUDITED = {"run": b"", "run --audit": b"A"}


def read(name):
    with open(name, "rb") as it:
        return it.read()


def main(out, folders):
    words = set()
    shutil.rmtree(f"{out}/seeds", ignore_errors=True)
    os.makedirs(f"{out}/seeds")
    for folder in folders:
        for entry in sorted(it for it in os.listdir(folder) if it.endswith(".in")):
            name = os.path.join(folder, entry[:-3])
            asked = read(f"{name}.words").decode().strip() if os.path.exists(f"{name}.words") else "run"
            if asked not in AUDITED:
                continue
            data = read(f"{name}.in")
            words |= set(re.findall(rb'"[A-Za-z_]+"|^[a-z]+ ', data, re.MULTILINE))
            with open(f"{out}/seeds/{os.path.basename(folder)}-{entry[:-3]}", "wb") as it:
                it.write(AUDITED[asked] + data)
    with open(f"{out}/words.dict", "w") as it:
        it.writelines('"%s"\n' % word.decode().replace('"', '\\"') for word in sorted(words))


main(sys.argv[1], sys.argv[2:])
