"""What is done with the blocks of the pages that do not show what their commands print. tests/packaging/follow-pages uses it."""

from collections import namedtuple

# A block that is run: its page and first words, what it prints (or how that ends), and the command that runs it, if it is not bash alone. $block
# is a file with the block.
Run = namedtuple("Run", "page first wanted by", defaults=['bash -e "$block"'])
ROWS = "arbiter\tVERIFIED true\t0\nblind-box\tVERIFIED false\t0\nblind-robot-hurried\tVERIFIED false\t0\nblind-robot\tVERIFIED true\t0\n"
ROWS += "carry-from-tables\tVERIFIED true\t0\neight-matches\tVERIFIED false\t0\n"
# two texts side by side
BOTH = 'cut -c -17 "$block" | grep . > two.qdimacs; cut -c 18-34 "$block" | sed "s/  .*//" > two.qrp; bin/qrp_cmd check two.qdimacs two.qrp'
IN_FOLDER = 'cp -r examples made; cd made/blind-box; sed s/NAME/blind-box/g "$block" | bash -e; diff -r . ../../examples/blind-box'
TRACES = 'mkdir traces; cd traces; cp ../tests/traces/adder2.* .; sed s/NAME/adder2/g "$block" | bash -e || true; diff -r . ../tests/traces | grep -v "^Only in ../"; true'
SLURM = '(echo "# a list"; echo; cat list) > longer; mv longer list; for task in 1 2 3 4 5 6 7; do SLURM_ARRAY_TASK_ID=$task bash "$block"; done; cat $(ls rows/* | sort -V)'
EXPLAINED = 'for it in names qdimacs qrp; do cp examples/blind-box/blind-box.$it f.$it; done; bash -e "$block" | tail -n 3; grep -c "^module strategy" strategy.v'
RUN = [
    Run("docs/CI.md", "curl ", "VERIFIED true\n"),
    Run("docs/CI.md", "- name:", "VERIFIED true\n", "sed '1,2d; s/^    //' \"$block\" | bash -e"),
    Run("docs/CI.md", "./qrp_cmd.static check f.qdimacs f.qrp |", "VERIFIED true\n"),
    Run("docs/DEPQBF.md", "status=0", "VERIFIED true\n"),
    Run("docs/DEPQBF.md", "depqbf ", "VERIFIED true\nVERIFIED true\nVERIFIED true\n", 'bash -e "$block" 2>&1 | grep -o "VERIFIED.*"'),
    Run("docs/GATES.md", "qrp_gates clauses", "VERIFIED true\n", 'bash "$block"'),
    Run("docs/GATES.md", "yosys -q", "confirmed\n", 'bash "$block"'),
    Run("docs/INSTALL.md", "tar xf", "VERIFIED false\n"),
    Run("docs/SOLVER.md", "/* pieces.c", "", 'cp "$block" pieces.c'),
    Run("docs/SOLVER.md", "cc pieces.c", "VERIFIED false\n"),
    Run("docs/STRATEGY.md", "echo 'module repaired", "confirmed\n"),
    Run(
        "docs/STRATEGY.md",
        "bin/qrp_strategy --binary tests/traces/kbkf6",
        "aig 106 18 0 6 88\naig 90 18 0 6 72\nwins\n",
        'bash -e "$block" | grep -o wins > said; head -q -n 1 strategy.aig smaller.aig; cat said',
    ),
    Run("docs/TUTORIAL.md", "yosys -q -p 'read_verilog examples/average/average.v; prep", "confirmed\n"),
    Run("docs/TUTORIAL.md", "yosys -q -p 'read_verilog -formal examples/arbiter", "1\n", 'bash -e "$block"; grep -a -c "^i4 gb$" watched.aig'),
    Run(
        "docs/TUTORIAL.md",
        "yosys -q -p 'read_verilog -formal examples/buffer/buffer.v; synth -flatten -top buffer; async2sync; dffunmap; aigmap;\n    write_aiger -symbols -zinit -vmap",
        "1\n",
        'bash -e "$block"; grep -c "buffer.v:9.*CHECK" buffer.map',
    ),
    Run(
        "docs/TUTORIAL.md",
        "yosys -q -p 'read_verilog -formal examples/buffer/buffer.v; synth -flatten -top buffer; async2sync; dffunmap; aigmap;\n    write_aiger -symbols -zinit -map",
        "buffer.v:9\n",
        'bash -e "$block" | grep -o -m 1 "buffer.v:9"; cmp wave.svg examples/buffer/wave.svg',
    ),
    Run(
        "docs/TUTORIAL.md",
        "yosys -q -p 'read_verilog examples/average/average.v; synth",
        "1\n",
        'bash -e "$block"; grep -a -c "^i14 h_minus$" average.aig',
    ),
    Run("docs/MANY.md", "for formula in", ROWS, 'bash -e "$block"; cut -f 1-3 table'),
    Run(
        "docs/MANY.md",
        "blind-box\t",
        "",
        'diff <(cut -f 1-3 "$block") <(grep ^blind-box table | cut -f 1-3); cut -f 4 "$block" table | grep -v "^[0-9.]*$" || true',
    ),
    Run("docs/MANY.md", "tools/check-many --resume", ROWS, 'bash -e "$block"; cut -f 1-3 table'),
    Run("docs/MANY.md", "#!/bin/bash", ROWS, SLURM),
    Run("docs/RULES.md", "p cnf 2 2        p qrp 2 5\ne 1 0", "VERIFIED false\n", BOTH),
    Run("docs/RULES.md", "p cnf 2 2        p qrp 2 5\na 1 0", "VERIFIED true\n", BOTH),
    Run("examples/README.md", "p cnf 2 2", "", 'bin/qrp_cmd format "$block" | diff "$block" -'),
    Run("examples/README.md", "./make-formula", "", IN_FOLDER),
    Run("examples/README.md", "examples/check-all", "30 passed, 0 failed\n", 'sed "s|PROGRAM|$(command -v bin/qrp_cmd)|" "$block" | bash -e'),
    Run("examples/README.md", "124 ", "", 'tail -n 4 examples/blind-box/blind-box.trimmed.qrp | head -n 3 | diff "$block" -'),
    Run("examples/README.md", "box=", "1\n", 'bash -e "$block"; grep -c "<svg " examples/blind-box/proof.svg'),
    Run("examples/README.md", "for n in", "parity14\tVERIFIED false\nparity15\tVERIFIED false\n", 'bash "$block"; cut -f 1-2 table'),
    Run("examples/README.md", "while IFS=", "1\n", 'bash -e "$block"; grep -c "<svg " many.svg'),
    Run("python/README.md", "import qrp_check\nverdict", "VERIFIED false False None\n", 'python3 "$block"'),
    Run("python/README.md", "import qrp_check\nwith", "VERIFIED false\n", 'python3 "$block"'),
    Run("tests/traces/README.md", "depqbf ", "", TRACES),
    Run("man/qrp_cmd.1", "depqbf ", "VERIFIED true\n", 'bash "$block"; cmp f.trimmed.qrp examples/carry-from-tables/carry-from-tables.trimmed.qrp'),
    Run(
        "man/qrp_gates.1",
        "qrp_gates ",
        "VERIFIED true\n",
        'printf "#QCIR-14\\nforall(a)\\nexists(b)\\noutput(g)\\ng = xor(a, b)\\n" > f.qcir; bash "$block"',
    ),
    Run("man/qrp_strategy.1", "qrp_strategy ", "aag 17 3 0 20 14\naig 17 3 0 20 14\n", 'bash -e "$block"; head -q -n 1 strategy.aag strategy.aig'),
    Run("man/qrp-check.1", "qrp-check", "VERIFIED true\n"),
    Run(
        "man/qrp-from-aiger.1",
        "yosys ",
        "c as numbers: h_op1=0 h_op2=2\nV -1 0\nV -2 0\nV -3 0\nV 4 0\nV -5 0\n",
        'cp examples/average/average.v .; bash -e "$block"; [ $? = 10 ] || true',
    ),
    Run(
        "man/qrp-drat-to-qrp.1",
        "grep ",
        "s UNSATISFIABLE\nVERIFIED false\n",
        'printf "p cnf 1 2\\ne 1 0\\n1 0\\n-1 0\\n" > f.qdimacs; bash "$block"',
    ),
    Run("man/qrp-draw-proof.1", "qrp-draw-proof", "1\n", 'bash -e "$block"; grep -c "<svg " proof.svg'),
    Run(
        "man/qrp-explain.1",
        "qrp-explain",
        "p cnf 2 2\ne 1 2 0\n1 2 0\n-1 0\n",
        'printf "p cnf 2 2\\n1 2 0\\n-1 0\\n" > f.dimacs; bash -e "$block" > /dev/null; cat f.qdimacs',
    ),
    Run("man/qrp-explain-strategy.1", "qrp-explain-strategy", "    carry_in = !box\n    a1 = true\n    b1 = false\n1\n", EXPLAINED),
    Run(
        "man/qrp-play.1",
        "qrp-play",
        "no variable is left, and the matrix holds: the existential player has won\n",
        "sed 's/1 -2 3/17 -18 19/' \"$block\" | bash -e",
    ),
    Run(
        "man/qrp-used-clauses.1",
        "qrp-used-clauses",
        "VERIFIED false\n",
        'cp examples/blind-box/blind-box.qrp f.qrp; cp examples/blind-box/blind-box.qdimacs f.qdimacs; bash -e "$block"; qrp_cmd check smaller.qdimacs f.qrp',
    ),
]

TOOLCHAIN = "it needs the toolchain: .ci/run builds, and tests/packaging/test-install installs"
LEFT = {
    ("README.md", "make "): TOOLCHAIN,
    ("README.md", "qrp_cmd check [--qu]"): "it says how a command is written",
    ("README.md", "#include"): "tests/packaging/test-install compiles it",
    ("README.md", "export PKG_CONFIG_PATH"): "tests/packaging/test-install runs it with this program",
    ("README.md", "import qrp_check"): "tests/packaging/test-install runs it",
    ("docs/ARCHITECTURE.md", "programs    qrp_cmd"): "a picture",
    ("docs/ARCHITECTURE.md", "file "): "a picture",
    ("docs/ARCHITECTURE.md", "check_marked "): "a picture",
    ("docs/BENCHMARKS.md", "bench/measure"): "it takes minutes",
    ("docs/BENCHMARKS.md", "(printf"): "it takes a minute and some memory",
    ("docs/CI.md", "podman load"): "tests/packaging/test-install runs it, if there is an engine",
    ("docs/EMBED.md", "embed_verify"): "tests/packaging/test-install compares it with crates.txt",
    ("docs/EMBED.md", "//!"): "tests/packaging/test-install compares it with the crate",
    ("docs/FORMATS.md", "formula = "): "a grammar",
    ("docs/FORMATS.md", "trace  = "): "a grammar",
    ("docs/FORMATS.md", "text    = "): "a grammar",
    ("docs/INSTALL.md", "python3 -m venv"): "tests/packaging/test-install runs it with the wheel",
    ("docs/INSTALL.md", "sudo apt install"): "tests/packaging/test-roots runs it in a whole system",
    ("docs/INSTALL.md", "podman load"): "tests/packaging/test-install runs it, if there is an engine",
    ("docs/INSTALL.md", "podman run"): "tests/packaging/test-install runs it, if there is an engine",
    ("docs/INSTALL.md", "make all"): TOOLCHAIN,
    ("docs/INSTALL.md", "make && sha256sum"): TOOLCHAIN,
    ("docs/MANY.md", "PYTHONPATH=tools benchexec"): "BenchExec is not here",
    ("docs/TUTORIAL.md", "for all "): "a prefix",
    ("docs/MANY.md", "tools/check-many --sshlogin"): "tests/tools/test-many has machines of its own",
    ("docs/PLAY.md", "examples/parity.sh"): "it takes minutes",
    ("docs/REFUSED.md", "tools/explain [--qu]"): "it says how a command is written",
    ("examples/README.md", "apt-get"): "it is for root; tests/install-tools does it",
    ("examples/README.md", "0 1 2"): "a picture",
    ("examples/README.md", "table 0"): "a picture",
    ("man/qrp_check.3", "#define"): "tests/packaging/test-install compiles and runs it",
}
