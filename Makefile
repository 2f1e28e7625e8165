# make run: the main job on a built-in casting: weld, draw, write sheets, read them back, list one, cut.
# make test: all that the gate runs. Its last line is the verdict of `rt ci`, printed once everything else has passed.
# make compare: ten million inputs to the port and to the original for each call (CALL, COUNT and SEED change that).
# make bench: times of the port beside the original, written to docs/BENCHMARKS.md.
# make fuzz: SECONDS of the coverage-guided fuzzer on the C functions, their buffers against unreadable pages (fuzz/README.md).
# make rows: the stored rows that crates/replay, replay_strokes, replay_meshes, replay_sheets and replay_stl are run on, made again.
.PHONY: run test compare bench fuzz rows
CALL ?= all
COUNT ?= 10000000
SEED ?= 1
SECONDS ?= 60
cargo = cargo run --manifest-path rust/Cargo.toml --offline --release --quiet
ours = $(cargo) --package compare --bin

run:
	@./tools/needs rt cargo
	@./tools/proved ramikohy list
	@mkdir -p target/sheets
	@[ -f target/native/libramikohy.a ] || echo 'compiling the library for this machine: a minute'
	@$(cargo) --package ramikohy --example casting -- tools/list target/sheets

test:
	@./tools/needs rt cargo
	@./tools/test

compare:
	@./tools/needs rt cargo
	@./tools/proved ramikohy
	@$(ours) compare -- $(CALL) $(COUNT) $(SEED)

bench:
	@./tools/needs rt cargo
	@./tools/proved ramikohy
	@./tools/into docs/BENCHMARKS.md $(ours) bench
	@cat docs/BENCHMARKS.md

fuzz:
	@./fuzz/run $(SECONDS)

rows:
	@./tools/needs rt cargo
	@./tools/proved ramikohy
	@./tools/into crates/replay/stdin $(ours) rows
	@./tools/into crates/replay_strokes/stdin $(ours) rows -- strokes
	@./tools/into crates/replay_meshes/stdin $(ours) rows -- meshes
	@./tools/into crates/replay_sheets/stdin $(ours) rows -- sheets
	@./tools/into crates/replay_stl/stdin $(ours) rows -- stl
