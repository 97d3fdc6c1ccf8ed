"""The texts of the packages that `tools/deb` makes: changelog, copyright, description and overrides of lintian."""
import email.utils
import functools
import glob
import os
import re
import subprocess
import textwrap

from repository import crates, read

NAME, MAIL = "Ciderglen maintainers", "maintainers@users.noreply.ciderglen.example"
WIDTH = 78
# libraries without a licence beside that of the kit, which use no other
OF_THE_KIT = ("std", "core")
HEADINGS = r"(?m)^## "
COPYRIGHT = """\
Format: https://www.debian.org/doc/packaging-manuals/copyright-format/1.0/
Upstream-Name: Ciderglen
Upstream-Contact: {maintainer}

Files: *
Copyright: the Ciderglen authors
License: Apache-2.0
Comment:
 A port to Rattle of the Rust crate oci-spec 0.10.0, which has the same
 licence: https://github.com/containers/oci-spec-rs. The identifiers of
 licences are those of SPDX's lists, which are in the public domain (CC0 1.0).

Files: kit/*
Copyright:
{kit}
License: Expat
Comment:
 Libraries of the Rattle kit, whose code the programs and the library for C
 hold. Ports of crates of Rust that may be taken under this licence or another
 are taken under this one.

License: Apache-2.0
 Licensed under the Apache License, Version 2.0; you may not use this file
 except in compliance with the License. Unless required by applicable law or
 agreed to in writing, software distributed under the License is distributed
 on an "AS IS" BASIS, WITHOUT WARRANTIES OR CONDITIONS OF ANY KIND, either
 express or implied. See the License for the specific language governing
 permissions and limitations under the License.
 .
 On Debian systems, its text is in /usr/share/common-licenses/Apache-2.0.

License: Expat
 Permission is hereby granted, free of charge, to any person obtaining a copy
 of this software and associated documentation files (the "Software"), to deal
 in the Software without restriction, including without limitation the rights
 to use, copy, modify, merge, publish, distribute, sublicense, and/or sell
 copies of the Software, and to permit persons to whom the Software is
 furnished to do so, subject to the following conditions:
 .
 The above copyright notice and this permission notice shall be included in all
 copies or substantial portions of the Software.
 .
 THE SOFTWARE IS PROVIDED "AS IS", WITHOUT WARRANTY OF ANY KIND, EXPRESS OR
 IMPLIED, INCLUDING BUT NOT LIMITED TO THE WARRANTIES OF MERCHANTABILITY,
 FITNESS FOR A PARTICULAR PURPOSE AND NONINFRINGEMENT. IN NO EVENT SHALL THE
 AUTHORS OR COPYRIGHT HOLDERS BE LIABLE FOR ANY CLAIM, DAMAGES OR OTHER
 LIABILITY, WHETHER IN AN ACTION OF CONTRACT, TORT OR OTHERWISE, ARISING FROM,
 OUT OF OR IN CONNECTION WITH THE SOFTWARE OR THE USE OR OTHER DEALINGS IN THE
 SOFTWARE.
"""
# a tag of lintian, and why it says nothing that has to be mended
OVERRIDES = {
    "initial-upload-closes-no-bugs": "It is not uploaded to Debian, where its changelog would close a report.",
}


def output_of(words, **how):
    return subprocess.run(words, stdout=subprocess.PIPE, check=True, text=True, **how).stdout.strip()


def text_in(path):
    with open(path, encoding="utf-8") as file:
        return file.read()


def maintainer():
    """Who makes the packages, by the variables that Debian's tools read too."""
    return f"{os.environ.get('DEBFULLNAME', NAME)} <{os.environ.get('DEBEMAIL', MAIL)}>"


def changes(section):
    """The changes that a section of CHANGELOG.md lists, each with the heading that it is below; tables are left out."""
    for part in re.split(r"(?m)^### ", section)[1:]:
        heading, _, body = part.partition("\n")
        for item in re.split(r"(?m)^- ", body)[1:]:
            lines = [line.strip() for line in item.split("\n")]
            yield f"{heading}: {' '.join(line for line in lines if line and not line.startswith('|'))}"


def changelog(version, revision, seconds):
    """The changelog as Debian has it: an entry for each version of CHANGELOG.md, of which the unreleased one is `version`."""
    entries = []
    for section in re.split(HEADINGS, read("CHANGELOG.md"))[1:]:
        title = section.split("\n")[0]
        found = re.match(r"\[(Unreleased|\d+\.\d+\.\d+)\]", title)
        if found:
            number = version if found.group(1) == "Unreleased" else found.group(1)
            lines = [textwrap.fill(it, WIDTH, initial_indent="  * ", subsequent_indent="    ", break_on_hyphens=False) for it in changes(section)]
            entries.append(f"ciderglen ({number}-{revision}) unstable; urgency=medium\n\n" + "\n".join(lines)
                           + f"\n\n -- {maintainer()}  {email.utils.formatdate(seconds)}\n")
    return "\n".join(entries)


@functools.lru_cache(None)
def kit():
    """The folder with the libraries of the kit."""
    return f"{os.path.dirname(output_of(['rt', 'doc']))}/rattle"


def used_by(crate):
    """The libraries that a crate uses: one of this repository by crates.txt, one of the kit by its sources."""
    if crate in crates():
        return crates()[crate].uses
    if crate in OF_THE_KIT:
        return []
    names = {it for path in glob.glob(f"{kit()}/{crate}/src/**/*.rt", recursive=True) for it in re.findall(r"(?m)^ *(?:pub )?use (\w+)", text_in(path))}
    return [it for it in names if os.path.isdir(f"{kit()}/{it}/src")]


def kit_crates(names):
    """The libraries of the kit whose code crates hold."""
    found, left = set(), list(names)
    while left:
        new = set(used_by(left.pop())) - found
        found |= new
        left += new
    return sorted(found - set(crates()))


def copyright_of(names):
    """The copyright file of packages that hold code of these crates."""
    held = []
    for crate in kit_crates(names):
        # (a library without a licence of its own is the kit's)
        licences = [path for path in (f"{kit()}/{crate}/LICENSE-MIT", f"{kit()}/{crate}/LICENSE") if os.path.exists(path)]
        if licences:
            holders = re.findall(r"(?mi)^copyright \(c\) (.*?)\.?$", text_in(licences[0])) or ["its authors"]
            held += [f" {holder} ({crate})" for holder in holders]
    return COPYRIGHT.format(maintainer=maintainer(), kit="\n".join(held))


def description(package):
    """The field Description of a package."""
    lines = [package.summary]
    for at, paragraph in enumerate(package.text):
        lines += [" ."] * (at > 0) + textwrap.wrap(paragraph, WIDTH, initial_indent=" ", subsequent_indent=" ")
    return "\n".join(lines)


def overrides(package):
    return "".join(f"# {why}\n{package.name}: {tag}\n" for tag, why in OVERRIDES.items())
