"""The files of docs/YOUR_BENCH.md, around the bench of docs/YOUR_CACHE.md: they write what the page shows."""

from harness import test
from shown import save, walk_page


@test
def the_files_of_your_bench_write_what_the_page_shows():
    folder = save("YOUR_CACHE.md", "your_bench_page")
    save("YOUR_BENCH.md", "your_bench_page")
    walk_page("YOUR_BENCH.md", folder)
