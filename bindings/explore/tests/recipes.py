"""The recipes of docs/EXPLORE-MANY.md, run as they are written: GNU parallel over ssh, a Slurm array, a matrix of CI."""

import json
import os
import pwd
import re
import shutil
import socket
import subprocess
import threading
from typing import Any, Dict, List, Optional

from tool import DEBIAN_PYTHON, HERE, PATIENCE, ToolTest, has_module

RECIPES = os.path.join(os.path.dirname(HERE), "recipes")
PAGE = os.path.abspath(f"{HERE}/../../../docs/EXPLORE-MANY.md")
SSHD = """Port {port}
ListenAddress 127.0.0.1
HostKey {room}/host
AuthorizedKeysFile {room}/user.pub
PidFile none
StrictModes no
UsePAM no
PasswordAuthentication no
KbdInteractiveAuthentication no
PermitRootLogin prohibit-password
AllowUsers {user}
SetEnv PATH={path}
"""
SSH = """Host one two
HostName 127.0.0.1
Port {port}
User {user}
IdentityFile {room}/user
IdentitiesOnly yes
UserKnownHostsFile {room}/known
StrictHostKeyChecking yes
BatchMode yes
"""
SLURM = """ClusterName=recipe
SlurmctldHost={host}(127.0.0.1)
SlurmUser=root
SlurmdUser=root
AuthType=auth/munge
AuthInfo=socket={room}/munge.socket
SlurmctldPort={control}
SlurmdPort={daemon}
StateSaveLocation={room}/state
SlurmdSpoolDir={room}/spool
SlurmctldPidFile={room}/slurmctld.pid
SlurmdPidFile={room}/slurmd.pid
ProctrackType=proctrack/linuxproc
TaskPlugin=task/none
JobAcctGatherType=jobacct_gather/none
SelectType=select/cons_tres
MpiDefault=none
NodeName={host} NodeAddr=127.0.0.1 CPUs={cpus} State=UNKNOWN
PartitionName=all Nodes=ALL Default=YES MaxTime=INFINITE State=UP
"""


class Recipe(ToolTest):
    """A folder with the files of the recipes, and a machine on which watchtree is installed."""

    def setUp(self) -> None:
        super().setUp()
        self.need("inotifywait", "inotify-tools")
        self.work = f"{self.room}/work"
        shutil.copytree(RECIPES, self.work)
        self.path = f"{self.install()}:{os.environ['PATH']}:/usr/sbin:/sbin"
        self.environment = {**os.environ, "PATH": self.path}

    def need(self, command: str, package: str) -> None:
        """Skips the test if a command is missing."""
        if not shutil.which(command, path=f"{os.environ['PATH']}:/usr/sbin:/sbin"):
            self.skipTest(f"there is no {command} (apt-get install {package})")

    def shell(self, command: str, status: int, **more: str) -> str:
        """Runs a command in the folder of the recipes. Returns what it prints."""
        said = subprocess.run(["bash", "-ec", command], cwd=self.work, env={**self.environment, **more}, stdin=subprocess.DEVNULL,
                              capture_output=True, text=True, timeout=PATIENCE, check=False)
        self.assertEqual(said.returncode, status, said.stdout + said.stderr)
        return said.stdout

    def serve(self, *words: str, ready: str = "") -> None:
        """Starts a daemon in the foreground, and waits for a line of it. The test ends it, by its number."""
        daemon = subprocess.Popen(words, cwd=self.room, env=self.environment, stdin=subprocess.DEVNULL, stdout=subprocess.PIPE,
                                  stderr=subprocess.STDOUT, text=True)
        self.addCleanup(self.end, daemon)
        assert daemon.stdout
        said: List[str] = []
        while ready and not (said and ready in said[-1]):
            said.append(daemon.stdout.readline())
            self.assertTrue(said[-1], f"{words[0]}: {''.join(said)}")
        # (a full pipe would stop it)
        threading.Thread(target=daemon.stdout.read, daemon=True).start()

    def end(self, daemon: "subprocess.Popen[str]") -> None:
        """Ends a daemon."""
        daemon.terminate()
        daemon.wait(timeout=60)

    def ports(self, count: int) -> List[int]:
        """Returns ports that are free now."""
        sockets = [socket.create_server(("127.0.0.1", 0)) for _ in range(count)]
        ports = [int(it.getsockname()[1]) for it in sockets]
        for it in sockets:
            it.close()
        return ports

    def found_all(self, merged: str, *more: str) -> None:
        """What was merged is what one search finds, and the report of it has each failure."""
        self.shell(f"sh search.sh --out one --replays 1 {' '.join(more)}", 1)
        both: List[Dict[str, str]] = []
        for folder in ("one", merged):
            names = [it for it in os.listdir(f"{self.work}/{folder}") if re.fullmatch(r"seed-\d+\.schedule", it)]
            both.append({it: self.read(f"work/{folder}/{it}") for it in names})
        self.assertEqual(both[1], both[0])
        self.assertGreater(len(both[0]), 1)
        self.assertTrue(os.path.exists(f"{self.work}/{merged}/shrunk.schedule"))
        self.assertEqual(self.read("work/report.xml").count("<failure "), len(both[0]))
        self.assertEqual(self.read("work/report.xml").count('name="seed '), 200)


class Parallel(Recipe):
    """GNU parallel over ssh, to an sshd of the test's own."""

    def start_sshd(self) -> None:
        """Starts sshd on the loopback address, with a key and a port of its own."""
        for name in ("host", "user"):
            self.run_tool(["ssh-keygen", "-q", "-t", "ed25519", "-N", "", "-f", f"{self.room}/{name}"])
        port, user = self.ports(1)[0], pwd.getpwuid(os.getuid()).pw_name
        words = {"port": port, "room": self.room, "user": user, "path": self.path}
        self.write("sshd_config", SSHD.format(**words))
        self.write("ssh_config", SSH.format(**words))
        self.write("known", f"[127.0.0.1]:{port} " + self.read("host.pub").rstrip("\n"))
        if os.getuid() == 0 and not os.path.exists("/run/sshd"):
            os.mkdir("/run/sshd", 0o755)
            self.addCleanup(os.rmdir, "/run/sshd")
        sshd = shutil.which("sshd", path=self.path) or ""
        self.serve(sshd, "-D", "-e", "-f", f"{self.room}/sshd_config", ready="Server listening on 127.0.0.1")

    def test_the_recipe(self) -> None:
        for command, package in (("parallel", "parallel"), ("sshd", "openssh-server"), ("ssh", "openssh-client"),
                                 ("rsync", "rsync")):
            self.need(command, package)
        self.start_sshd()
        self.write("work/hosts", "one", "two")
        ssh = f"ssh -F {self.room}/ssh_config"
        said = self.shell("sh parallel.sh", 1, PARALLEL_SSH=ssh, PARALLEL_HOME=f"{self.room}/parallel", shards="3",
                          folder=f"{self.room}/remote", LC_ALL="C")
        self.assertEqual(said.count("at rest: "), 4)
        self.assertIn("200 runs, ", said)
        self.assertIn(" failed (of 3 shards)\n", said)
        shards = {f"script.shard-{number}-of-3" for number in (1, 2, 3)}
        self.assertEqual(set(os.listdir(f"{self.room}/remote")), {"script", "search.sh", *shards})
        self.found_all("script.failures")


class Slurm(Recipe):
    """A Slurm array, with daemons that the test starts in the foreground: no service manager is needed."""

    def start_slurm(self) -> None:
        """Starts a cluster of one node."""
        control, daemon = self.ports(2)
        for name in ("state", "spool"):
            os.mkdir(f"{self.room}/{name}")
        words = {"host": socket.gethostname(), "room": self.room, "control": control, "daemon": daemon,
                 "cpus": len(os.sched_getaffinity(0))}
        path = self.write("slurm.conf", SLURM.format(**words))
        self.environment["SLURM_CONF"] = path
        with open(f"{self.room}/munge.key", "wb") as file:
            os.fchmod(file.fileno(), 0o600)
            file.write(os.urandom(1024))
        files = [f"--{name}={self.room}/munge.{name.split('-')[0]}" for name in ("key-file", "socket", "pid-file", "seed-file")]
        self.serve("munged", "-F", "--force", *files, ready="Created socket")
        self.serve("slurmctld", "-D", "-f", path, ready="Running as primary controller")
        self.serve("slurmd", "-D", "-f", path, "-N", words["host"])

    def test_the_recipe(self) -> None:
        for command, package in (("slurmctld", "slurm-wlm"), ("slurmd", "slurm-wlm"), ("munged", "munge")):
            self.need(command, package)
        if os.getuid():
            self.skipTest("the daemons of Slurm want root")
        self.start_slurm()
        job = self.shell("sbatch --wait --parsable array.sbatch", 0).strip()
        self.shell(f"sbatch --wait --dependency=afterok:{job} merge.sbatch", 1)
        self.found_all("script.failures")
        again = self.shell("sbatch --wait --parsable --array=3 array.sbatch --resume", 0).strip()
        self.assertIn("25 runs, ", self.read(f"work/slurm-{again}_3.out"))


class Matrix(Recipe):
    """A workflow of CI: its commands, with what its other steps would do done by the test."""

    def workflow(self) -> Dict[str, Any]:
        """Returns the file."""
        if not has_module("yaml"):
            self.skipTest("there is no yaml for Python (apt-get install python3-yaml)")
        program = "import json, sys, yaml; json.dump(yaml.safe_load(sys.stdin), sys.stdout, skipkeys=True, default=str)"
        with open(f"{self.work}/workflow.yml", encoding="utf-8") as file:
            said = subprocess.run([DEBIAN_PYTHON, "-c", program], stdin=file, capture_output=True, text=True, check=True)
        out: Dict[str, Any] = json.loads(said.stdout)
        return out

    def step(self, job: Dict[str, Any], name: str) -> Dict[str, Any]:
        """Returns a step of a job."""
        found: List[Dict[str, Any]] = [it for it in job["steps"] if it.get("name") == name]
        self.assertEqual(len(found), 1)
        return found[0]

    def test_its_commands(self) -> None:
        jobs = self.workflow()["jobs"]
        search = self.step(jobs["explore"], "search")
        os.mkdir(f"{self.work}/shards")
        for number in jobs["explore"]["strategy"]["matrix"]["shard"]:
            values = {name: it.replace("${{ matrix.shard }}", str(number)) for name, it in search["env"].items()}
            self.assertNotIn("$", "".join(values.values()))
            self.shell(search["run"], 0, **values)
            # (upload-artifact and download-artifact)
            os.rename(f"{self.work}/shard", f"{self.work}/shards/shard-{number}")
        self.shell(self.step(jobs["merge"], "merge")["run"], 1)
        self.found_all("script.failures")
        self.assertTrue(json.loads(self.read("work/report.json"))["complete"])

    def test_a_shard_that_could_not_search_fails(self) -> None:
        search = self.step(self.workflow()["jobs"]["explore"], "search")
        self.shell("rm script", 0)
        self.shell(search["run"], 1, SHARD="1/4")


class Page(ToolTest):
    """The page has the files of the recipes."""

    def test_each_file_is_in_the_page(self) -> None:
        with open(PAGE, encoding="utf-8") as file:
            page = file.read()
        for name in sorted(os.listdir(RECIPES)):
            with open(f"{RECIPES}/{name}", encoding="utf-8") as file:
                text = file.read()
            shown: Optional[re.Match[str]] = re.search(rf"^`{re.escape(name)}`(?:[^\n]+\n)+\n```\w*\n(.*?)^```$", page, re.M | re.S)
            self.assertTrue(shown, name)
            self.assertEqual(shown[1], text, name)  # type: ignore[index]
