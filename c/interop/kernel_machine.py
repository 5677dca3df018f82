"""Debian's kernel with drivers of D channels in an emulated machine, for c/interop/kernel."""

import contextlib
import glob
import os
import re
import shutil
import subprocess
import tarfile
import time

from common import TOP, Failed, compile_c, printed, text_at

C = f"{TOP}/c"
GUEST = f"{C}/interop/kernel_guest"
# The programs that must be installed, each with its package.
INSTALLED = {
    "qemu-system-x86_64": "qemu-system-x86", "cpio": "cpio", "gzip": "gzip", "cc": "gcc",
    "make": "make", "strip": "binutils", "apt-get": "apt", "dpkg-deb": "dpkg",
}
# The programs and libraries of the guest are only unpacked. tc needs the libraries after it.
UNPACKED = (
    "busybox-static dahdi libtonezone2.0 dahdi-dkms libpri1.4 libpri-dev iproute2 libbpf1 libelf1"
    " libmnl0 libcap2 libbsd0 libmd0 libdb5.3 libtirpc3 libxtables12 zlib1g libselinux1"
    " libpcre2-8-0 libgssapi-krb5-2 libkrb5-3 libk5crypto3 libkrb5support0 libcom-err2"
    " libkeyutils1"
).split()
HEADERS = r"linux-(headers|kbuild|compiler)-\S+"
MODULES = "mISDN_core l1oip veth sch_prio sch_netem cls_u32".split()
DAHDI_MODULES = "dahdi dahdi_dynamic dahdi_dynamic_loc dahdi_dynamic_eth".split()
NO_CLOCK = "\t\tspan->cannot_provide_timing = 1;"
FOLDERS = "bin mod proc sys dev lib64 lib/x86_64-linux-gnu ours etc".split()
LIBLAPD = f"{C}/out/liblapd.a"
LIBPRI = "libpri.so.1.4"
# How many numbered messages go each way over DAHDI, and over l1oip in the time that it allows.
MESSAGES, MESSAGES_E1 = 10000, 3000
KERNEL_END = [f"{C}/{it}.c" for it in ("interop/kernel_end", "interop/tcp_line", "example")]
LINE = [f"{C}/line/{it}.c" for it in ("line", "dahdi", "misdn", "tcp", "unix")]


def missing_programs():
    """The packages of the programs that are not installed."""
    return sorted(package for it, package in INSTALLED.items() if not shutil.which(it))


def depends(package, pattern):
    """The packages with such a name that a package depends on."""
    lines = printed("apt-cache", "depends", package).splitlines()
    names = [it.split("Depends:")[1].strip() for it in lines if it.strip().startswith("Depends:")]
    return [it for it in names if re.fullmatch(pattern, it)]


def libraries(program, folders):
    """The shared libraries of a program, as the loader finds them, first in these folders."""
    environment = {**os.environ, "LD_LIBRARY_PATH": ":".join(folders)}
    try:
        lines = printed("ldd", program, env=environment).splitlines()
    except subprocess.CalledProcessError:
        return []  # linked statically
    lost = [it.split()[0] for it in lines if "not found" in it]
    if lost:
        raise Failed(f"{program} needs {' '.join(lost)}, which was not found")
    return re.findall(r"(/\S+) \(0x", "\n".join(lines))


class Machine:
    """A folder with all that a guest needs: packages, modules and programs."""

    def __init__(self, hold, program):
        self.hold, self.program = os.path.abspath(hold), program
        self.tree, self.out = f"{self.hold}/unpacked", f"{self.hold}/bin"
        self.libraries = [f"{self.tree}/{it}/x86_64-linux-gnu" for it in ("usr/lib", "lib")]

    def prepare(self):
        if printed("dpkg", "--print-architecture").strip() != "amd64":
            raise Failed("the kernel is that of Debian on amd64 (x86-64), and this is another host")
        for it in (f"{self.hold}/packages", self.out):
            os.makedirs(it, exist_ok=True)
        image = depends("linux-image-amd64", r"linux-image-\S+")
        if not image:
            raise Failed("apt does not know linux-image-amd64; `apt-get update` reads its lists")
        self.version = image[0].removeprefix("linux-image-").removesuffix("-unsigned")
        headers = f"linux-headers-{self.version}"
        self.fetch(image + UNPACKED + [headers] + depends(headers, HEADERS))
        self.build_modules()
        self.build_programs()
        root = f"{self.hold}/root"
        self.fill(root)
        pack(root, f"{self.hold}/guest.img")

    # ---- Packages.

    def fetch(self, names):
        """Downloads the packages that are missing, and unpacks them, without root."""
        folder = f"{self.hold}/packages"
        for name in names:
            done = f"{folder}/{name}.unpacked"
            if os.path.exists(done):
                continue
            if not glob.glob(f"{folder}/{name}_*.deb"):
                self.apt(folder, "download", name)
            [package] = glob.glob(f"{folder}/{name}_*.deb")
            subprocess.run(["dpkg-deb", "-x", package, self.tree], check=True)
            with open(done, "w", encoding="ascii"):
                pass

    def apt(self, folder, *words):
        # As root, apt downloads as a user that may not write here, and says so.
        call = ["apt-get", "-q", "-o", "APT::Sandbox::User=", *words]
        ran = subprocess.run(call, cwd=folder, text=True, capture_output=True)
        if ran.returncode != 0:
            raise Failed(f"{' '.join(call)}: {ran.stderr.strip()[-300:]}")

    def packaged(self):
        """The versions of what the rows are about."""
        names = [f"linux-image-{self.version}", "dahdi-dkms", "libpri1.4"]
        files = [os.path.basename(glob.glob(f"{self.hold}/packages/{it}_*.deb")[0]) for it in names]
        return [" ".join(it.split("_")[:2]).replace("%3a", ":") for it in files]

    def libpri_sources(self):
        """A folder with libpri's sources, by lists of apt of our own, with deb-src."""
        done = glob.glob(f"{self.hold}/libpri-source/libpri-*/q921.c")
        if done:
            return os.path.dirname(done[0])
        folder = f"{self.hold}/libpri-source"
        for it in ("", "/lists/partial"):
            os.makedirs(folder + it, exist_ok=True)
        form = "$(ORIGIN) $(REPO_URI) $(RELEASE) $(COMPONENT)"
        lines = printed("apt-get", "indextargets", "--format", form, "Created-By: Packages")
        keys = "[signed-by=/usr/share/keyrings/debian-archive-keyring.gpg]"
        ours = {it.split(" ", 1)[1] for it in lines.splitlines() if it.startswith("Debian ")}
        with open(f"{folder}/sources.list", "w", encoding="utf-8") as file:
            file.writelines(f"deb-src {keys} {it}\n" for it in sorted(ours))
        private = [
            "-o", f"Dir::Etc::sourcelist={folder}/sources.list", "-o", "Dir::Etc::sourceparts=-",
            "-o", f"Dir::State::lists={folder}/lists",
        ]
        self.apt(folder, *private, "update")
        self.apt(folder, *private, "source", "--download-only", "libpri")
        with tarfile.open(glob.glob(f"{folder}/libpri_*.orig.tar.*")[0]) as archive:
            archive.extractall(folder)
        return os.path.dirname(glob.glob(f"{folder}/libpri-*/q921.c")[0])

    # ---- Modules and programs.

    def build_modules(self):
        """Builds DAHDI's core and its dynamic spans for the kernel, by its headers, which need not
        be installed: their Makefile names the folder where they would be."""
        [source] = glob.glob(f"{self.tree}/usr/src/dahdi-*/drivers/dahdi")
        self.dahdi, self.modules = os.path.realpath(f"{source}/../../include"), source
        if all(os.path.exists(f"{source}/{it}.ko") for it in DAHDI_MODULES):
            return
        headers = f"{self.tree}/usr/src/linux-headers-{self.version}"
        [common] = glob.glob(f"{self.tree}/usr/src/linux-headers-*-common")
        with open(f"{headers}/Makefile", "w", encoding="utf-8") as file:
            file.write(f"include {common}/Makefile\n")
        # Both ends of the virtual cable are in one kernel: a span must not take its clock from what
        # it receives, which would make each packet cause the next one at once.
        ethernet = f"{source}/dahdi_dynamic_eth.c"
        text = text_at(ethernet).replace("z->span = span;", f"z->span = span;\n{NO_CLOCK}")
        with open(ethernet, "w", encoding="utf-8") as file:
            file.write(text)
        # Without the cards, which would take two minutes more.
        lines = text_at(f"{source}/Kbuild").splitlines()
        kept = [it for it in lines if not re.match(r"\s*obj-", it)]
        with open(f"{source}/Kbuild", "w", encoding="utf-8") as file:
            file.write(f"obj-m := {' '.join(f'{it}.o' for it in DAHDI_MODULES)}\n")
            file.write("\n".join(kept) + "\n")
        call = ["make", "-s", "-C", headers, f"M={source}", f"DAHDI_INCLUDE={self.dahdi}"]
        with open(f"{self.hold}/modules.log", "w", encoding="utf-8") as log:
            how = {"stdout": log, "stderr": subprocess.STDOUT}
            ran = subprocess.run([*call, "DAHDI_MODULES_EXTRA= ", "modules"], **how)
        if ran.returncode != 0:
            raise Failed(f"DAHDI's modules were not built; {self.hold}/modules.log has the reason")

    def build_programs(self):
        """Compiles the C programs of the guest."""
        options = "-std=gnu11", "-O2", "-g", "-Wall", "-Wextra", f"-I{C}", f"-I{self.dahdi}"
        unused = "-ffunction-sections", "-Wl,--gc-sections"
        pri = f"-I{self.tree}/usr/include", f"-L{self.libraries[0]}", "-DWITH_DAHDI", "-lpri"
        files = {
            "lapd-line": [f"{C}/line/lapd-line.c", *LINE],
            "line_delay": [f"{C}/interop/line_delay.c", *LINE],
            "numbered": [f"{C}/interop/numbered.c"],
            "kernel_end": [*KERNEL_END, *unused],
            "end": [f"{C}/libpri/tests/end.c", *pri],
        }
        if os.path.exists(LIBLAPD):
            self.build_libpri()
            files["terminal"] = [f"{C}/terminal.c", f"{C}/example.c", *LINE, LIBLAPD]
        for name, words in files.items():
            compile_c(*options, "-o", f"{self.out}/{name}", *words)

    def build_libpri(self):
        """Builds libpri with our layer 2."""
        sources, out = self.libpri_sources(), f"{self.hold}/libpri"
        call = ["make", "-s", "-C", f"{C}/libpri", f"LIBPRI_SRC={sources}", f"OUT={out}"]
        ran = subprocess.run([*call, f"{out}/{LIBPRI}"], text=True, capture_output=True)
        if ran.returncode != 0:
            raise Failed(f"{' '.join(call)}: {ran.stderr.strip()[-300:]}")

    # ---- The guest.

    def put(self, root, source, name, stripped=True):
        """Copies a program with its libraries to the guest."""
        if stripped:
            subprocess.run(["strip", "-o", f"{root}/{name}", source], check=True)
        else:
            shutil.copy(source, f"{root}/{name}")
        os.chmod(f"{root}/{name}", 0o755)
        for it in libraries(source, self.libraries):
            folder = "lib64" if it.startswith("/lib64/") else "lib/x86_64-linux-gnu"
            if not os.path.exists(f"{root}/{folder}/{os.path.basename(it)}"):
                shutil.copy(it, f"{root}/{folder}/")

    def fill(self, root):
        """Makes the folder of the guest's files, without the script of a part."""
        shutil.rmtree(root, ignore_errors=True)
        for it in FOLDERS:
            os.makedirs(f"{root}/{it}")
        shutil.copy(glob.glob(f"{self.tree}/*bin/busybox")[0], f"{root}/bin/busybox")
        self.put(root, self.program, "bin/lapd")
        for it in os.listdir(self.out):
            self.put(root, f"{self.out}/{it}", f"bin/{it}")
        self.put(root, f"{self.tree}/sbin/tc", "bin/tc")
        self.put(root, f"{self.tree}/bin/ip", "bin/ip")
        self.put(root, f"{self.tree}/usr/sbin/dahdi_cfg", "bin/dahdi_cfg")
        for it in DAHDI_MODULES:
            subprocess.run(
                ["strip", "--strip-debug", "-o", f"{root}/mod/{it}.ko", f"{self.modules}/{it}.ko"],
                check=True,
            )
        for it in MODULES:
            where = f"{self.tree}/lib/modules/{self.version}/**/{it}.ko"
            shutil.copy(glob.glob(where, recursive=True)[0], f"{root}/mod/")
        if os.path.exists(LIBLAPD):
            shutil.copy(f"{self.hold}/libpri/{LIBPRI}", f"{root}/ours/")
        shutil.copy(f"{GUEST}/init", f"{root}/init")
        os.chmod(f"{root}/init", 0o755)

    def boot(self, name, limit, more):
        """Runs a part in a guest for this number of seconds at most, with these files more, of which
        `part` replaces its script. Returns the files that it wrote, by their names, and how long
        it took."""
        folder = f"{self.hold}/parts/{name}"
        shutil.rmtree(folder, ignore_errors=True)
        os.makedirs(f"{folder}/root")
        if "part" not in more:
            more = {**more, "part": text_at(f"{GUEST}/{name}")}
        for it, text in more.items():
            with open(f"{folder}/root/{it}", "w", encoding="utf-8") as file:
                file.write(text)
        pack(f"{folder}/root", f"{folder}/part.img")
        # The kernel unpacks one archive after another.
        with open(f"{folder}/initrd", "wb") as image:
            for it in (f"{self.hold}/guest.img", f"{folder}/part.img"):
                with open(it, "rb") as file:
                    shutil.copyfileobj(file, image)
        kernel = f"{self.tree}/boot/vmlinuz-{self.version}"
        call = ["qemu-system-x86_64", "-accel", "tcg", "-cpu", "max", "-m", "512", "-no-reboot"]
        call += ["-display", "none", "-monitor", "none", "-nic", "none", "-kernel", kernel]
        call += ["-initrd", f"{folder}/initrd"]
        words = f"console=ttyS0 panic=-1 quiet tsc=reliable LIMIT={limit}"
        call += ["-append", f"{words} MESSAGES={MESSAGES} MESSAGES_E1={MESSAGES_E1}"]
        call += ["-serial", f"file:{folder}/console", "-serial", f"file:{folder}/out.tar.gz"]
        began = time.monotonic()
        with open(f"{folder}/qemu", "wb") as log:
            how = {"stdin": subprocess.DEVNULL, "stdout": log, "stderr": log}
            with contextlib.suppress(subprocess.TimeoutExpired):
                subprocess.run(call, timeout=limit + 60, **how)
        os.remove(f"{folder}/initrd")
        return self.files(folder), time.monotonic() - began

    def files(self, folder):
        """Unpacks what a guest has sent, and returns its texts."""
        out = f"{folder}/out"
        os.makedirs(out)
        with contextlib.suppress(tarfile.TarError, EOFError, OSError):
            with tarfile.open(f"{folder}/out.tar.gz") as archive:
                archive.extractall(out)
        texts = {}
        for it in os.listdir(out):
            with open(f"{out}/{it}", encoding="utf-8", errors="replace") as file:
                texts[it] = file.read()
        return texts


def pack(root, image):
    """Packs a folder as an image for the kernel."""
    names = subprocess.run(["find", "."], cwd=root, check=True, capture_output=True).stdout
    how = {"cwd": root, "check": True, "stdout": subprocess.PIPE, "stderr": subprocess.DEVNULL}
    archive = subprocess.run(["cpio", "-o", "-H", "newc", "-R", "0:0"], input=names, **how).stdout
    with open(image, "wb") as file:
        subprocess.run(["gzip", "-1"], input=archive, stdout=file, check=True)
