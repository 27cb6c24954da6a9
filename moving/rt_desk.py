"""Request Tracker 4.4 and 5.0 and the databases that they stand on, out of Debian's packages, in a
folder: nothing is installed. apt has to reach Debian's archive the first time."""
import glob
import json
import os
import re
import subprocess

HERE = os.path.dirname(os.path.abspath(__file__))
# RT by its version in the packages' names
VERSIONS = {"5.0": "5", "4.4": "4"}
PACKAGES = [*(f"{name}{it}{rest}" for it in VERSIONS.values()
              for name, rest in (("request-tracker", ""), ("rt", "-db-sqlite"), ("rt", "-standalone"))),
            "rt5-clients", "libdbd-pg-perl", "libdbd-mysql-perl", "mariadb-server", "postgresql"]
# what the packages ask for, and what isn't used here: a mailer, fonts, pages of a manual
UNUSED = ("exim4", "fonts-", "dbconfig-", "graphviz", "perl-doc")
# the scrips that move a status, and that set a due moment; the others write letters
KEPT = ("On Correspond Open Inactive Tickets", "Set starts date if needed according to SLA",
        "Set due date if needed according to SLA")

CONFIGURATION = """Set($rtname, 'try');
Set($Organization, 'try.example');
Set($WebDomain, '127.0.0.1');
Set($WebPath, '');
Set($Timezone, 'UTC');
Set($DatabaseType, $ENV{RT_TRY_TYPE});
Set($DatabaseName, $ENV{RT_TRY_NAME});
Set($DatabaseHost, $ENV{RT_TRY_HOST});
Set($DatabaseUser, $ENV{RT_TRY_USER});
Set($DatabasePassword, '');
Set(%DatabaseExtraDSN, mysql_socket => $ENV{RT_TRY_SOCKET}) if $ENV{RT_TRY_SOCKET};
Set($LogToSyslog, undef);
Set($LogToSTDERR, 'critical');
Set($MailCommand, sub { return 1 });
Set($RestrictReferrer, 0);
"""


def wanted(packages):
    """The packages that these need and that this system lacks."""
    told = subprocess.run(["apt-get", "install", "-s", "--no-install-recommends", *packages],
                          stdout=subprocess.PIPE, check=True, text=True).stdout
    lines = [line.split() for line in told.splitlines() if line.startswith("Inst ")]
    new = [words[1] for words in lines if not words[2].startswith("[")]
    return [name for name in new if not name.startswith(UNUSED)]


class Packages:
    """The unpacked packages, below one folder."""

    def __init__(self, folder):
        self.folder = os.path.abspath(folder)
        self.root = os.path.join(self.folder, "root")
        os.makedirs(os.path.join(self.folder, "none"), exist_ok=True)
        if not os.path.exists(os.path.join(self.folder, "fetched")):
            self.fetch()

    def fetch(self):
        """Unpacks the packages, and tells RT where it is. The two versions can't be installed side by
        side, but their files are others."""
        place = os.path.join(self.folder, "packages")
        os.makedirs(place, exist_ok=True)
        names = set()
        for version in VERSIONS.values():
            other = [f"{it}{number}" for it in ("request-tracker", "rt") for number in VERSIONS.values()
                     if number != version]
            names |= set(wanted([it for it in PACKAGES if not it.startswith(tuple(other))]))
        subprocess.run(["apt-get", "-o", "APT::Sandbox::User=root", "download", *sorted(names)],
                       cwd=place, check=True, stdout=subprocess.DEVNULL)
        for package in glob.glob(os.path.join(place, "*.deb")):
            subprocess.run(["dpkg", "-x", package, self.root], check=True)
        for number in VERSIONS.values():
            self.here(os.path.join(self.share(number), "lib", "RT", "Generated.pm"))
            self.here(os.path.join(self.share(number), "libexec", "rt-server"))
            self.here(os.path.join(self.root, "usr", "sbin", f"rt-setup-database-{number}"))
        with open(os.path.join(self.folder, "fetched"), "w", encoding="utf-8"):
            pass

    def share(self, number):
        return os.path.join(self.root, "usr", "share", f"request-tracker{number}")

    def here(self, path):
        """Puts the folder before each path that RT's file names."""
        with open(path, encoding="utf-8") as file:
            text = file.read()
        text = re.sub("""(['"])(?=/(?:usr|etc|var)/)""", lambda found: found[1] + self.root, text)
        with open(path, "w", encoding="utf-8") as file:
            file.write(text)

    def environment(self):
        """What programs of the packages need of the environment."""
        machine = os.path.join(self.root, "usr", "lib", "x86_64-linux-gnu")
        path = f"{self.root}/usr/bin:{self.root}/usr/sbin:{os.environ['PATH']}"
        return {**os.environ, "LD_LIBRARY_PATH": machine, "TZ": "UTC", "HOME": self.folder, "PATH": path}


class RT:
    """RT of a version on a database, with a configuration of its own."""

    def __init__(self, packages, version, database, configuration=""):
        self.packages, self.number, self.database = packages, VERSIONS[version], database
        self.configuration_file = os.path.join(database.room, "RT_SiteConfig.pm")
        with open(self.configuration_file, "w", encoding="utf-8") as file:
            file.write(CONFIGURATION + configuration + "1;\n")

    def environment(self):
        root = self.packages.root
        machine = os.path.join(root, "usr", "lib", "x86_64-linux-gnu")
        folders = [os.path.join(self.packages.share(self.number), "lib"), os.path.join(root, "usr/share/perl5"),
                   *sorted(glob.glob(os.path.join(machine, "perl5", "5*"))), os.path.join(machine, "perl5")]
        return {**self.packages.environment(), "PERL5LIB": ":".join(folders),
                "RT_SITE_CONFIG": self.configuration_file,
                "RT_SITE_CONFIG_DIR": os.path.join(self.packages.folder, "none"), **self.database.words()}

    def perl(self, *words, **how):
        return subprocess.run(["perl", *words], env=self.environment(), check=True, **how)

    def new_tables(self):
        """RT's own tables of a desk that has nobody yet, with no letters to write."""
        user = self.database.words().get("RT_TRY_USER", "root")
        setup = os.path.join(self.packages.root, "usr", "sbin", f"rt-setup-database-{self.number}")
        with open(os.path.join(self.database.room, "setup.log"), "wb") as log:
            self.perl(setup, "--action", "init", "--skip-create", "--dba", user, "--dba-password", "",
                      stdout=log, stderr=log)
        names = ", ".join(f"'{name}'" for name in KEPT)
        self.database.sql(f"UPDATE Scrips SET Disabled = CASE WHEN Description IN ({names})"
                          " THEN 0 ELSE 1 END;")

    def configuration(self):
        """What moving/config.pl tells of RT's configuration."""
        told = self.perl(os.path.join(HERE, "config.pl"), stdout=subprocess.PIPE)
        return json.loads(told.stdout)
