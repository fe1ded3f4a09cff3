# Programs that nobody here wrote, over picolibc (picolibc-riscv64-unknown-elf) and the kit's console. Their sources are not here: each is named by its folder,
# as README.md shows.
LUA ?= /nowhere
SQLITE ?= /nowhere
HTTP ?= /nowhere
TCL ?= /nowhere
DUKTAPE ?= /nowhere
UTHASH ?= /usr/include

FOREIGN := lua sqlite http tcl duktape
FOREIGN_STACK := 32768
# How many steps go by before the first line, and from line to line.
FIRST := 4000000
SPACE := 2000000
LIBRARY := $(DEBUG) -mabi=ilp32 -mcmodel=medany -fno-pic -ffunction-sections -fdata-sections --specs=picolibc.specs

# Of each: its sources, flags, where headers are, its level of optimization, how many bytes malloc has, and whether it takes lines.
lua_sources := $(addprefix $(LUA)/,$(addsuffix .c,lapi lcode lctype ldebug ldo ldump lfunc lgc llex lmem lobject lopcodes lparser lstate lstring ltable ltm \
	lundump lvm lzio lauxlib lbaselib lcorolib lmathlib lstrlib ltablib lutf8lib))
lua_flags := -std=gnu99 '-Dluai_makeseed(L)=0'
lua_headers := $(LUA)
lua_level := $(OPT)
lua_heap := 393216
lua_kit := kit/lines.c

sqlite_sources := $(SQLITE)/sqlite3.c
sqlite_flags := -DSQLITE_OS_OTHER=1 -DSQLITE_THREADSAFE=0 -DSQLITE_ENABLE_MEMSYS5 -DSQLITE_DEFAULT_MEMSTATUS=0 -DSQLITE_TEMP_STORE=3 -DSQLITE_DQS=0 \
	-DSQLITE_DEFAULT_PAGE_SIZE=1024 -DSQLITE_DEFAULT_CACHE_SIZE=16 -DSQLITE_DEFAULT_LOOKASIDE=0,0 -DSQLITE_MAX_EXPR_DEPTH=100 \
	-DSQLITE_LIKE_DOESNT_MATCH_BLOBS $(addprefix -DSQLITE_OMIT_,LOAD_EXTENSION WAL SHARED_CACHE AUTHORIZATION DEPRECATED PROGRESS_CALLBACK DECLTYPE TRACE \
	COMPLETE DESERIALIZE JSON TCL_VARIABLE UTF16)
sqlite_headers := $(SQLITE)
sqlite_level := -Os
sqlite_heap := 4096
sqlite_kit := kit/lines.c

http_sources := $(HTTP)/http_parser.c
http_flags := -std=gnu11
http_headers := $(HTTP)
http_level := -Os
http_heap := 524288
http_kit :=

tcl_sources := $(addprefix $(TCL)/,jim.c jim-subcmd.c jim-format.c utf8.c jimregexp.c)
tcl_flags := -std=gnu11 -D_GNU_SOURCE
tcl_headers := $(TCL)
tcl_level := -Os
tcl_heap := 393216
tcl_kit := kit/lines.c

duktape_sources := $(DUKTAPE)/duktape.c
duktape_flags := -std=gnu11
duktape_headers := $(DUKTAPE)
duktape_level := -Os
duktape_heap := 458752
duktape_kit := kit/lines.c

# Headers beside them: one that names the folder of a machine's libraries, which Debian's build of Lua makes; uthash's; and what Jim finds of the C library.
lua_made := lua5.4-deb-multiarch.h
http_made := uthash.h
tcl_made := jim-config.h jimautoconf.h
$(OUT)/lua.parts/lua5.4-deb-multiarch.h:
	@mkdir -p $(@D)
	: > $@
$(OUT)/http.parts/uthash.h: $(UTHASH)/uthash.h
	@mkdir -p $(@D)
	cp $< $@
$(OUT)/tcl.parts/jim-config.h: tcl/config.h
	@mkdir -p $(@D)
	cp $< $@
$(OUT)/tcl.parts/jimautoconf.h: tcl/config.h
	@mkdir -p $(@D)
	cp $< $@

# foreign NAME: how its image is made. What others wrote is compiled without warnings.
define foreign
.PHONY: $(1)
$(1): $(OUT)/$(1).image
harts_$(1) := 1
$(1)_parts := $(OUT)/$(1).parts
$(1)_objects := $$(patsubst %.c,$$($(1)_parts)/%.o,$$(notdir $$($(1)_sources)))
$(1)_own := $$(patsubst %.c,$$($(1)_parts)/%.own,$$(notdir $(1)/$(1).c kit/console.c $$($(1)_kit)))
$(foreach source,$($(1)_sources),
$(OUT)/$(1).parts/$(notdir $(source:.c=.o)): $(source) $(addprefix $(OUT)/$(1).parts/,$($(1)_made)) foreign.mk
	@mkdir -p $$(@D)
	$$(CROSS)gcc $$(LIBRARY) -march=rv32im $$($(1)_level) $$($(1)_flags) -w $(addprefix -I,$($(1)_headers)) -I$$(@D) -c $$< -o $$@
)
$(foreach source,$(1)/$(1).c kit/console.c $($(1)_kit),
$(OUT)/$(1).parts/$(notdir $(source:.c=.own)): $(source) kit/console.h kit/guest.h kit/device.h $(addprefix $(OUT)/$(1).parts/,$($(1)_made)) Makefile foreign.mk
	@mkdir -p $$(@D)
	$$(CROSS)gcc $$(LIBRARY) -march=rv32ima_zicsr $$($(1)_level) $$(WARN) $$(filter -D%,$$($(1)_flags)) -Ikit $(addprefix -isystem ,$($(1)_headers)) \
		-isystem $$(@D) -DHARTS=1 -DSTACK=$$(FOREIGN_STACK) -DHEAP=$$($(1)_heap) -c $$< -o $$@
)
$(OUT)/$(1).elf: $$($(1)_objects) $$($(1)_own) $(KIT) Makefile foreign.mk
	$$(CC) $$(MACHINE) -DHARTS=1 -DSTACK=$$(FOREIGN_STACK) -c kit/start.S -o $$($(1)_parts)/start.o
	$$(CC) $$(MACHINE) $$($(1)_level) $$(WARN) -Ikit -DHARTS=1 -DSTACK=$$(FOREIGN_STACK) -DHAS_LIBRARY -c kit/kit.c -o $$($(1)_parts)/kit.o
	$$(CROSS)gcc $$(LIBRARY) -march=rv32im -nostartfiles -static -T kit/guest.ld -Wl,--build-id=none -Wl,--gc-sections -Wl,--defsym=STACK=$$(FOREIGN_STACK) \
		-Wl,--defsym=HARTS=1 $$($(1)_parts)/start.o $$($(1)_parts)/kit.o $$($(1)_own) $$($(1)_objects) -lm -o $$@
endef
$(foreach name,$(FOREIGN),$(eval $(call foreign,$(name))))

# `make programs WORKBENCH=PROGRAM` asks each of these that was built its `lines`, and compares what it answers with `answers`.
.PHONY: programs
programs:
	@for name in $(FOREIGN); do \
		[ -f $(OUT)/$$name.image ] || continue; \
		$(PYTHON) kit/console.py script $(FIRST) $(SPACE) < $$name/lines > $(OUT)/$$name.script || exit 1; \
		steps=$$($(PYTHON) kit/console.py steps $(FIRST) $(SPACE) < $$name/lines) || exit 1; \
		(cd .. && $(WORKBENCH) run guests/$(OUT)/$$name.image guests/$(OUT)/$$name.script $$steps guests/$(OUT)/$$name.log) > $(OUT)/$$name.text || exit 1; \
		$(PYTHON) kit/console.py text < $(OUT)/$$name.text | cmp - $$name/answers || exit 1; \
		echo "$$name answers as it should"; \
	done
