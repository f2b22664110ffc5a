"""A job file of fio becomes its logs: the same figures as of the logs that fio makes by hand, and nothing else is written or run."""

import os
import subprocess
from unittest import mock

from tests.packages import needs
from tests.test_simulate import SimulateTest
from tests.tools import Run

JOB = b"# A comment.\n\n[one]\nsize=1600k\nio_size=4m\nbs=4k\nrw=randrw\nrwmixread=30\nnorandommap\n"
WORDS = ("--page-bytes", 4096, "--pages", 16, "--over-provisioning", "15,50")


@needs("fio", "numpy", "matplotlib")
class JobFiles(SimulateTest):
    def simulate_job(self, text, status=0, words=WORDS):
        return self.simulate(*words, log=self.file("job.fio", text), status=status)

    def by_hand(self, *sections):
        """The logs that fio makes of sections by its options alone."""
        logs = []
        for number, options in enumerate(sections):
            logs.append(self.folder / f"by_hand_{number}.log")
            call = ["fio", "--name=one", "--ioengine=null", f"--write_iolog={logs[-1]}", *options]
            subprocess.run(call, cwd=self.folder, check=True, stdout=subprocess.DEVNULL)
        return logs

    def test_has_the_figures_of_the_log_that_fio_makes(self):
        done = self.simulate_job(JOB)
        first = self.rows()
        self.assertEqual((done.lines[0], done.errors.splitlines()[-1].endswith("1,024 lines")), ("the whole run, 1,024 lines; no write was refused", True))
        options = "--size=1600k --io_size=4m --bs=4k --rw=randrw --rwmixread=30 --norandommap".split()
        self.out = self.folder / "again"
        self.simulate(*WORDS, log=self.by_hand(options))
        self.assertEqual(self.rows(), first)

    def test_a_second_simulation_is_of_the_same_logs(self):
        first = self.simulate_job(JOB).text
        (made,) = self.out.glob("fio-*")
        before = (made / "one.log").read_bytes()
        self.assertEqual(self.simulate_job(JOB).text, first)
        self.assertEqual((made / "one.log").read_bytes(), before)
        again = Run("simulate", self.out / "run.toml", "--out", self.folder / "again")
        self.assertEqual((again.status, again.text), (0, first))

    def test_jobs_of_a_section_are_merged_by_their_times(self):
        self.simulate_job(b"[global]\nnumjobs=3\n" + JOB)
        self.assertEqual({row["lines"] for row in self.rows()}, {str(3 * 1024)})
        logs = sorted(self.out.glob("fio-*/*.log"))
        requests = [[line.split()[2:] for line in log.read_text().splitlines() if len(line.split()) == 5] for log in logs]
        self.assertEqual([len(each) for each in requests], [1024] * 3)
        self.assertNotEqual(requests[0], requests[1])

    def test_touches_no_data_and_runs_no_program(self):
        data, ran = self.file("data", b"kept"), self.folder / "ran"
        more = f"filename={data}\nioengine=sync\nfallocate=none\nexec_prerun=touch {ran}\nwrite_bw_log={ran}\ndirectory=/no/such\n"
        self.simulate_job(JOB + more.encode())
        self.assertEqual((data.read_bytes(), ran.exists()), (b"kept", False))
        self.assertEqual({path.name for path in self.folder.iterdir()}, {"data", "job.fio", "out"})

    def test_refuses_jobs_that_depend_on_a_device(self):
        for more, said in (
            (b"runtime=60\ntime_based\n", "[one] runs by time (runtime), so its requests depend on a device: fio --write_iolog=job.log"),
            (b"stonewall\n", "[one] waits for another job (stonewall)"),
            (b"numjobs=many\n", "[one] has numjobs=many, and 1 to 100 are simulated"),
            (b"rw=sideways\n", "fio ended with status 1: "),
        ):
            with self.subTest(more):
                text = JOB.replace(b"rw=randrw\n", b"") + more
                done = self.simulate_job(text, status=2 if more[:1] in b"rs" and b"=side" not in more else 3 if b"numjobs" in more else 1)
                self.assertIn(said, done.errors)
                self.assertEqual(done.text, "")
        self.assertIn("has no job", self.simulate_job(b"[global]\nbs=4k\n", status=3).errors)

    def test_names_the_line_that_makes_the_log_without_fio(self):
        with mock.patch.dict(os.environ, {"PATH": "/no/such"}):
            said = self.simulate_job(JOB, status=1).errors
        self.assertIn("fio makes it, which isn't installed: apt-get install fio; or fio --write_iolog=job.log ", said)
        self.assertFalse(self.out.exists())

    def test_refuses_a_folder_of_something_else_before_fio_runs(self):
        self.out.mkdir()
        (self.out / "notes").write_text("mine\n")
        self.assertIn("has other files: name a new folder", self.simulate_job(JOB, status=1).errors)
        self.assertEqual([path.name for path in self.out.iterdir()], ["notes"])
