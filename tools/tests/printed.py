"""tools/generate: what it prints, files and parts of files, stands in the tree as it prints it."""


def test_as_printed(bench):
    status, out, err = bench.tool("generate/run", "--check")
    bench.equal("as printed", (status, out.decode(), err), (0, "", ""))


def test_bad_words(bench):
    status, out, err = bench.tool("generate/run", "--chck")
    bench.check("a word it does not know", status == 1 and "tools/generate/run --check" in err)
