#!/usr/bin/env python3
"""Puts faults into the program wizhdulet, one at a time, and runs the tests of tests/standby.py, or tests/console.py, that must find each. Some minutes; by hand.

standby_faults.py [NUMBER..]   those faults, counted from 1, else all
"""
import os
import shutil
import subprocess
import sys
import tempfile
from pathlib import Path

ROOT = Path(__file__).resolve().parents[1]
# File, text, what stands in its place, and the tests.
FAULTS = [
    ("kept.rs", "self.file.sync_data().map(Ok)", "Ok(Ok(()))", "syncs"),
    ("kept.rs", "self.file.sync_data().map(Ok)", "let _ = self.file.sync_data();\n        Ok(Ok(()))", "syncs"),
    ("kept.rs", "return self.cut(self.len).map(|()| Err(error));", "return Ok(Err(error));", "full"),
    ("kept.rs", "        self.file.set_len(len)\n", "        Ok(())\n", "cuts behind_a_refusal"),
    ("kept.rs", "            match file.try_lock() {", "            match Ok::<(), TryLockError>(()) {", "locks promotions"),
    ("kept.rs", "            First::Fault(refusal) => {\n", "            First::Fault(_) if all.begins => return Ok((standby, all)),\n            First::Fault(refusal) => {\n", "locks"),
    ("kept.rs", "    if standby.counters.checked != 0 {", "    if false {", "copies promotions"),
    ("kept.rs", "    if standby.counters.checked != 0 {", "    if true {", "promotions"),
    ("kept.rs", "session.durable || !wire::is_new(&bound)", "true", "copies"),
    ("kept.rs", "session.durable || !wire::is_new(&bound)", "session.durable && place != 1", "copies lives promotions"),
    ("kept.rs", " || !wire::is_new(&bound)", "", "copies"),
    ("serve.rs", "return (frames, Some(words_of(refusal))),", "return (frames, None),", "rubbish pieces"),
    ("serve.rs", "} else if epoch.is_none() {", "} else if false {", "rubbish"),
    ("serve.rs", "} else if named.is_some() && named != epoch {", "} else if false {", "rubbish"),
    ("serve.rs", "line.epoch == Some(epoch) && line.connection != connection", "line.epoch.is_none() && line.connection != connection && epoch > 99", "replaced"),
    ("serve.rs", "        let _ = self.socket.shutdown(Shutdown::Both);", "", "actives"),
    ("serve.rs", "            if answer.refusal != 0 {", "            if answer.refusal == 255 {", "rubbish"),
    ("serve.rs", "self.kept.len > taken", "self.kept.len > taken + (1 << 40)", "behind_a_refusal lives"),
    ("serve.rs", "        stream.take(at);\n        (answers, end)", "        stream.take(at);\n        answers.truncate(answers.len() / 17 * 17);\n        (answers, end)", "life pieces"),
    ("serve.rs", "if self.lines.len() >= LINES", "if self.lines.len() >= 1 << 20", "rubbish"),
    ("serve.rs", "(l.connection == 0 || l.connection != current)", "true", "rubbish"),
    ("serve.rs", "line.connection != 0 && line.connection == self.standby.counters.connections", "true", "life"),
    ("serve.rs", "        if line.connection != 0 && line.connection == self.standby.counters.connections {\n            self.standby.drop_line_of(line.connection);", "        {\n            self.standby.drop_line_of(self.standby.counters.connections);", "actives"),
    ("serve.rs", "            linger(&socket);", "            drop(socket);", "behind_a_refusal"),
    ("serve.rs", "    standby.settings.incarnation = incarnation;", "    standby.settings.incarnation = known.max(1 << 61);", "life promotions"),
    ("serve.rs", "    kept.cut(all.bytes).and_then(|()| kept.file.sync_all())", "    kept.file.sync_all()", "cuts"),
    ("serve.rs", "        std::fs::write(format!(\"{name}.left\"), &all.left).map_err(failed(name))?;", "", "cuts"),
    ("serve.rs", "    given.agrees_with(&state.limits).map_err(|option| {", "    Ok::<(), String>(()).map_err(|option| {", "copies"),
    ("serve.rs", "if known == 0 && kept.len > 0 && !all.begins {", "if false {", "locks"),
    ("serve.rs", "kept.unwrap_or_else(|error| give_up(&self.kept.name, &error))", "kept.unwrap_or_else(Err)", "syncs"),
    ("serve.rs", "            return (Vec::new(), Some(format!(\"NOT KEPT, and not answered: {}\", plain(&error))));", "            self.log(&plain(&error));", "full"),
    ("keep.rs", "        if !is_same(&standby, &new) {", "        if false {", "copies"),
    ("keep.rs", "&& places.all(|place| a.session(place) == b.session(place))", "&& places.all(|_| true)", "copies"),
    ("keep.rs", "    if standby.counters.checked == 0 && !unchecked {", "    if false {", "promotions"),
    ("keep.rs", "    if seen != epoch {", "    if false {", "promotions"),
    ("keep.rs", "    if std::fs::exists(&target).map_err(failed(&target))? {", "    if false {", "promotions"),
    ("keep.rs", "    replace(&target, |file| write_whole(&standby, file).map_err(failed(&format!(\"{target}.new\"))))?;", "", "promotions"),
    ("promote.rs", "match standby.promote(unchecked) {", "match standby.promote(true) {", "promotions"),
    ("messages.rs", "    if told != number {", "    if false {", "console"),
    ("messages.rs", '[("8", &session.key[0]), ("49", &session.key[1]), ("56", &session.key[2])]', '[("8", &session.key[0]), ("49", &session.key[1]), ("49", &session.key[1])]', "console"),
    ("messages.rs", "            Some(ours) if ours.1 == *text => continue,", "            Some(_) => continue,", "console"),
    ("messages.rs", "    if told.messages.last().is_none_or(|(_, last)| last != text) {", "    if false {", "console"),
    ("standby.rs", "copy.counters.checked != 0", "true", "console"),
    ("standby.rs", "handles: 16 * OPENINGS", "handles: 16", "limits"),
    ("standby.rs", "sessions as usize * OPENINGS", "kept.handles", "limits"),
    ("standby.rs", "if sessions == kept.sessions { kept.handles } else { sessions as usize * OPENINGS }", "sessions as usize * OPENINGS", "limits"),
    ("standby.rs", "Ok(vec![T::default(); given])", "Ok((0..given).map(|_| std::hint::black_box(T::default())).collect())", "limits"),
    ("standby.rs", "Vec::<T>::new().try_reserve_exact(*count).is_ok()", "true", "limits"),
    ("resend.rs", "set >> i & 1 == 1).map", "set >> i & 1 == 0).map", "console"),
]  # fmt: skip
missed = 0
archive = ROOT / "target/host/libwizhdulet.a"
if not archive.exists():
    subprocess.run([ROOT / "host/build"], stdout=subprocess.DEVNULL, check=True)
for number, (file, old, new, tests) in enumerate(FAULTS, 1):
    if sys.argv[1:] and str(number) not in sys.argv[1:]:
        continue
    with tempfile.TemporaryDirectory() as folder:
        shutil.copytree(ROOT / "host", f"{folder}/host")
        shutil.copy(ROOT / "VERSION", folder)
        source = Path(folder) / "host/src" / file
        text = source.read_text()
        if text.count(old) != 1:
            sys.exit(f"fault {number}: {file} doesn't have it once: {old}")
        source.write_text(text.replace(old, new))
        program = f"{folder}/wizhdulet"
        built = subprocess.run(["rustc", "--edition", "2024", "-O", "-C", "panic=abort", "-A", "warnings", "-L", archive.parent, f"{folder}/host/src/main.rs", "-o", program], stderr=subprocess.PIPE)
        if built.returncode:
            sys.exit(f"fault {number}: isn't compiled: {built.stderr.decode()}")
        environment = {**os.environ, "WIZHDULET_PROGRAM": program}
        for test in tests.split():
            try:
                command = [ROOT / "tests/console.py"] if test == "console" else [ROOT / "tests/standby.py", test]
                done = subprocess.run(command, env=environment, stdout=subprocess.PIPE, stderr=subprocess.PIPE, timeout=300)
                said = done.stderr.decode().split("\n")[0][:150] if done.returncode else "NOT FOUND"
                missed += done.returncode == 0
            except subprocess.TimeoutExpired:
                said = "doesn't end"
            print(f"{number:>2} {test}: {said}", flush=True)
print(f"standby_faults: {len(FAULTS)} faults, {missed} times not found")
sys.exit(missed != 0)
