"""What bash proposes (share/landtree.bash)."""

import shutil
import subprocess

from tests.support import TOP, Case, needs

BASH = shutil.which("bash")


@needs(BASH, "no bash")
class Completions(Case):
    def proposed(self, *words):
        """Returns what is proposed for the last one of the words, which come after the program's name."""
        script = f'source "{TOP}/share/landtree.bash"; COMP_WORDS=(landtree "$@"); COMP_CWORD=$#; _landtree; '
        script += 'printf "%s\\n" "${COMPREPLY[@]}"'
        call = [BASH, "-c", script, "bash", *words]
        return subprocess.run(call, cwd=self.room, capture_output=True, text=True, check=True).stdout.split()

    def test_a_history(self):
        self.put("run.history")
        self.assertEqual(self.proposed("learn", "--history", ""), ["run.history"])
        self.assertEqual(self.proposed("learn", "--history", "x"), [])
        for command in ("run", "serve", "schedule"):
            self.assertEqual(self.proposed(command, "--history", ""), [])
