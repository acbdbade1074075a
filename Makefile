# make help lists the targets.
RT ?= rt
PREFIX ?= /usr/local
# Checks that the gate runs side by side: the largest takes some 5.5 GB of a machine's 24, most half of that.
GATE_JOBS ?= $(shell n=$$(nproc); echo $$((n < 4 ? n : 4)))
CRATES := $(shell sed -e 's/\#.*//' -e 's/:.*//' -e '/^[[:space:]]*$$/d' crates.txt)
# Which crate, or script, has the tests of which crates; a crate of tests has its own.
TESTS_OF := kept_tests:kept_walk,kept_world,state_search,reply_state,store_audit \
	file_tests:wire,index_reader,chunk_reader,packed_chunks,tombstones,block,block_writer,xor_reader,doubles,decimal_text,prometheus_block \
	store_tests:labels,pages,matchers,postings,head,snapshots,cover,block_search,series_merge,answers,selector_cache,requests,query_http,server,commands,querier,journal,event_text \
	world_tests:history,block_walk,reply_reader,auditor,audit_command,audit_laws,auditor_program,block_rewriter,head_record,store_folder,logged_folder \
	whole_tests:whole_audit \
	port_tests:remote_http,remote_listings \
	remote_tests:stored_doubles,varints,snappy,protobuf_fields,remote_write,remote_read,remote_requests,remote_rows \
	tests/serving.sh:guard \
	tests/store_audits.py:kept_folder,store_command \
	tests/durable/run.py:keeper,name_table,numbered_text,event_journal,cut_schedule,join_schedule,block_upkeep,block_joiner,span_text,folder_lock,data_folder,store_joiner,store_backup \
	tests/scraping.sh:server_metrics \
	tests/live/run.py:waiting_room,text_choices,page_requests,answer_pages \
	tests/importing.sh:imported_values,kept_samples,time_cuts,block_folder,block_outputs,double_text,open_metrics,metrics_writer,exposition,blocktool \
	tests/pages-html.py:page_layout,page_style,page_escape,page_text,page_claims,page_marks,page_pins,state_claims,page,asked_series,explain
# The crate or the script with the tests of a crate, or nothing.
tests_of = $(if $(filter %_tests,$(1)),$(1),$(word 1,$(subst :, ,$(foreach it,$(TESTS_OF),$(if \
	$(filter $(1),$(subst $(comma), ,$(word 2,$(subst :, ,$(it))))),$(it))))))
comma := ,
.PHONY: help try demo test gate-times readme allocations audits serving bench install \
	$(addprefix check-,$(CRATES)) $(addprefix test-,$(CRATES))

help: ## lists the targets
	@grep -hE '^[a-z-]+:.*## ' $(MAKEFILE_LIST) | sed -E 's/^([a-z-]+):.*## /\1\t/' | expand -t 16
	@echo "check-CRATE     proves one crate; CRATE is one of: $(CRATES)"
	@echo "test-CRATE      runs the tests of one crate, wherever they stand"

try: ## runs `querier demo` with no proof
	@echo "building without proofs: one minute, up to four on a slow or busy machine" >&2
	@cd crates/querier && $(RT) try -- demo

demo: ## proves what `querier` stands on, with a line for each crate, and runs `querier demo`
	@dir=$$(mktemp -d) && RT="$(RT)" JOBS=$(GATE_JOBS) packaging/build "$$dir" querier && "$$dir/querier" demo; \
	code=$$?; rm -rf "$$dir"; exit $$code

test: ## the merge gate: every proof from nothing, must-fail edits, tests, programs
	@RT_JOBS=$(GATE_JOBS) $(RT) ci

.PHONY: cases
cases: ## runs the cases of crates/case_files/data with no proof: two minutes, most of them a build
	@cd crates/case_files && $(RT) try $$(ls data | sed 's,.*,--data &=data/&,') -- $$(cat args)

gate-times: ## runs the gate and tells its minutes by crate, for proofs, proofs of tests and edits
	@RT_JOBS=$(GATE_JOBS) tests/gate-times.py $(RT) ci

readme: ## types each command of the README and compares what it prints; with PREFIX=.. it takes the programs in PREFIX/bin
	@RT="$(RT)" tests/readme.sh

allocations: ## refuses each allocation in turn: of an opening, changes of a store, the demo, a selection, a search, connections and audits (needs a C compiler)
	@RT="$(RT)" tests/allocations.sh

audits: ## pipes replies of querier over blocks, and of a server that keeps its store, through auditor, as they are and changed; with REPLIES=10000 so many of a busy server (needs rustc and python3)
	@RT="$(RT)" tests/audits.sh
	@RT="$(RT)" tests/store_audits.py $(if $(REPLIES),--replies $(REPLIES))

serving: ## runs the server and asks it with curl: the session of the README, slow and silent clients
	@RT="$(RT)" tests/serving.sh

.PHONY: scripts
scripts: ## runs every script of tests/ that this machine has the programs for, and tells which ran, failed or were left out
	@RT="$(RT)" tests/scripts.py

.PHONY: package pages
package: ## builds a Debian package of the programs, man pages, completions, documents and the example (needs dpkg-deb, binutils and python3)
	@RT="$(RT)" packaging/make

pages: ## compares the help texts, the man pages, the documents and the completions, and runs the examples of the man pages
	@RT="$(RT)" tests/pages.py

.PHONY: progress
progress: ## looks at what querier tells a terminal of the directories that it reads (needs python3)
	@RT="$(RT)" tests/progress.py

.PHONY: pages-html
pages-html: ## has the program `explain` show replies of any kind, and checks the pages (needs python3)
	@RT="$(RT)" tests/pages-html.py

.PHONY: scaling
scaling: ## asks four queriers over the quarters of a block, and compares their rows with those of one (needs rustc and python3)
	@RT="$(RT)" tests/scaling.py

.PHONY: durable
durable: ## kills a server that keeps its store a hundred times, damages its journals, and has its disk fail (needs python3 and a C compiler)
	@RT="$(RT)" tests/durable/run.py

.PHONY: year
year: ## the long parts of these: a year of cuts in minutes, joins that are killed at each call, full disks, replies meanwhile (needs python3, a C compiler and root)
	@RT="$(RT)" tests/durable/run.py joining-live meanwhile full year

.PHONY: live
live: ## has a Prometheus and vmagent send to the server, and a Prometheus ask it; and sends it bodies made by hand (needs prometheus, vmagent and python3)
	@RT="$(RT)" tests/live/run.py

bench: ## measures speed, first beside Prometheus and VictoriaMetrics (never part of the gate)
	@RT="$(RT)" bench/peers.py && RT="$(RT)" bench/run.sh && RT="$(RT)" bench/check.sh && RT="$(RT)" bench/select.sh && RT="$(RT)" bench/audit.sh && RT="$(RT)" bench/serve.sh && RT="$(RT)" bench/durable.py

install: ## proves what querier, auditor, explain and blocktool stand on, with a line for each crate, builds them, and copies them to PREFIX/bin
	@dir=$$(mktemp -d) && trap 'rm -rf "$$dir"' EXIT && RT="$(RT)" JOBS=$(GATE_JOBS) packaging/build "$$dir" && \
	install -D -m 755 "$$dir/querier" "$(DESTDIR)$(PREFIX)/bin/querier" && \
	install -D -m 755 "$$dir/auditor_program" "$(DESTDIR)$(PREFIX)/bin/auditor" && \
	install -D -m 755 "$$dir/explain" "$(DESTDIR)$(PREFIX)/bin/explain" && \
	install -D -m 755 "$$dir/blocktool" "$(DESTDIR)$(PREFIX)/bin/blocktool"

$(addprefix check-,$(CRATES)): check-%:
	@cd crates/$* && $(RT) check

$(addprefix test-,$(CRATES)): test-%:
	@tests="$(call tests_of,$*)"; [ -n "$$tests" ] || { echo "$*: the Makefile's table TESTS_OF does not name its tests" >&2; exit 1; }; \
	case $$tests in \
	  */*) echo "the tests of $* are the script $$tests" >&2; RT="$(RT)" $$tests ;; \
	  *) echo "the tests of $* stand in crates/$$tests" >&2; cd crates/$$tests && $(RT) test ;; \
	esac
