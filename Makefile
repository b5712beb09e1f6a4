# make run builds and runs the first example, without proving it; make build proves the program and leaves it; make test is the gate.
PREFIX ?= /usr/local
PROGRAM = crates/ziria/out/ziria

.PHONY: run test build install

# The output waits in a file, so that a run that fails makes this fail.
run:
	@output=$$(mktemp) && trap 'rm -f "$$output"' EXIT && cd crates/ziria && \
	printf '\001' | rt try --data xor.zir=../../examples/xor.zir -- run --ticks 100 xor.zir >"$$output" && \
	od -An -tx1 "$$output" && \
	echo "built and run without a proof: make build proves the program"

test:
	./.ci/run

# The program is run once on no input: that proves it and every crate below it, and links it.
build:
	cd crates/ziria && rt run -- run --ticks 1 ../../examples/xor.zir </dev/null

# The program, its manual page, what bash and zsh complete, and the syntax files of Vim and VS Code.
SHARE = $(DESTDIR)$(PREFIX)/share

install: build
	install -D $(PROGRAM) $(DESTDIR)$(PREFIX)/bin/ziria
	install -D -m 644 man/ziria.1 $(SHARE)/man/man1/ziria.1
	install -D -m 644 completions/ziria.bash $(SHARE)/bash-completion/completions/ziria
	install -D -m 644 completions/_ziria $(SHARE)/zsh/site-functions/_ziria
	install -D -m 644 editors/vim/syntax/ziria.vim $(SHARE)/vim/vimfiles/syntax/ziria.vim
	install -D -m 644 editors/vim/ftdetect/ziria.vim $(SHARE)/vim/vimfiles/ftdetect/ziria.vim
	install -D -m 644 editors/vscode/package.json $(SHARE)/ziria/vscode/package.json
	install -D -m 644 editors/vscode/language-configuration.json $(SHARE)/ziria/vscode/language-configuration.json
	install -D -m 644 editors/vscode/syntaxes/ziria.tmLanguage.json $(SHARE)/ziria/vscode/syntaxes/ziria.tmLanguage.json
