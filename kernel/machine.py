"""Boots the kernel that `setup` made, in QEMU."""
import os
import subprocess
import tempfile

PEER = os.environ.get("KERNEL_PEER", os.path.expanduser("~/.cache/switchbr-kernel"))
# With the instructions counted a sleeping guest costs no time; KVM is faster where much is computed.
EMULATED = ["-accel", "tcg", "-icount", "shift=0,sleep=off", "-cpu", "qemu64"]
KVM = ["-accel", "kvm", "-cpu", "host"]


def has_kvm():
    """Whether KVM runs a kernel as it is: the device alone may be of a host that only runs kernels made for it."""
    with open("/proc/cpuinfo") as file:
        words = set(file.read().split())
    return os.access("/dev/kvm", os.R_OK | os.W_OK) and bool(words & {"vmx", "svm"})


def archive(name, data):
    """A cpio archive of one file, or of a folder where there are no bytes, as the kernel unpacks it behind the first one."""
    parts = b""
    for path, body, mode in ((name, data or b"", 0o40755 if data is None else 0o100644), ("TRAILER!!!", b"", 0)):
        fields = [1, mode, 0, 0, 1, 0, len(body), 0, 0, 0, 0, len(path) + 1, 0]
        head = b"070701" + b"".join(b"%08x" % field for field in fields) + path.encode() + b"\0"
        for part in (head, body):
            parts += part + b"\0" * (-len(part) % 4)
    return parts


def write_root(path, root, files):
    """A root of the file `root` of the peer's folder, and these files: bytes by their paths."""
    with open(os.path.join(PEER, root), "rb") as file:
        base = file.read()
    with open(path, "wb") as file:
        file.write(base + b"\0" * (-len(base) % 512) + b"".join(archive(*each) for each in files.items()))


def run(root, words, accelerator, memory, limit):
    """Runs the guest until it ends; raises subprocess.TimeoutExpired behind so many seconds."""
    host = os.path.join(PEER, "host")
    libraries = os.path.join(host, "usr/lib/x86_64-linux-gnu")
    with open(os.path.join(PEER, "kernel")) as file:
        kernel = file.read().strip()
    command = [os.path.join(host, "usr/bin/qemu-system-x86_64"), "-L", os.path.join(host, "usr/share/qemu"),
               "-L", os.path.join(host, "usr/share/seabios"), *accelerator, "-m", str(memory), "-smp", "1", "-nodefaults", "-no-user-config",
               "-display", "none", "-no-reboot", "-kernel", kernel, "-initrd", root, "-append", "console=ttyS0 quiet panic=-1 rdinit=/init "
               "nokaslr mitigations=off" + ("" if accelerator is KVM else " clocksource=tsc tsc=reliable nowatchdog"), *words]
    paths = ":".join([libraries, os.path.join(libraries, "pulseaudio"), os.path.join(host, "lib/x86_64-linux-gnu")])
    environment = dict(os.environ, LD_LIBRARY_PATH=paths, QEMU_MODULE_DIR=os.path.join(libraries, "qemu"))
    subprocess.run(command, env=environment, timeout=limit, check=True)


def lines(files, limit):
    """What the guest wrote, of one boot with these files; a sleeping guest costs no time."""
    with tempfile.TemporaryDirectory() as place:
        root, out = os.path.join(place, "initrd"), os.path.join(place, "out")
        write_root(root, "root.cpio", files)
        try:
            run(root, ["-serial", "file:" + out + ".console", "-serial", "file:" + out], EMULATED, 512, limit)
        except subprocess.TimeoutExpired:
            print("the kernel was stopped after %d s" % limit)
        with open(out, errors="replace") as file:
            return file.read().splitlines()


def release():
    """The version of the kernel that is booted."""
    with open(os.path.join(PEER, "kernel")) as file:
        return file.read().strip().rpartition("vmlinuz-")[2]


def here(script, limit):
    """What the commands write in a network namespace of this machine's own kernel; it takes root, and the seconds that they sleep."""
    begin = "mount --make-rprivate / && mount -t sysfs none /sys && "
    done = subprocess.run(["unshare", "-n", "-m", "sh", "-c", begin + "true\n" + script], stdout=subprocess.PIPE, stderr=subprocess.STDOUT,
                          text=True, timeout=limit)
    return done.stdout.splitlines()


def scenarios(texts, limit):
    """What the guest wrote of each scenario by name, from the texts by name."""
    written = lines({"job/scenarios": "".join("=== %s\n%s" % each for each in texts).encode()}, limit)
    told, name, start = {}, None, 0
    for number, line in enumerate(written):
        if line == "=== end" and name is not None:
            told[name], name = written[start:number], None
        elif line.startswith("=== ") and line != "=== end":
            name, start = line[4:], number + 1
    return told
