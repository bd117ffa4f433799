/* What changed texts and fields are made of: the corners of every rule of docs/COMMANDS.md, and what stands right
 * beside them. */
#include "change.h"

const char *const numbers[] = {
    "0", "1", "-1", "2", "3", "4", "5", "7", "8", "15", "16", "17", "31", "32", "33", "63", "64", "65", "255",
    "256", "257", "1023", "1024", "1025", "2047", "2048", "-2048", "-2049", "4095", "4096", "4097", "65535",
    "65536", "65537", "262144", "262145", "1000000", "1000001", "1048575", "1048576", "1048577", "4194304",
    "4194305", "16777216", "16777217", "2147483647", "2147483648", "-2147483648", "-2147483649", "4294967292",
    "4294967295", "4294967296", "9999999999", "9223372036854775807", "9223372036854775808", "-9223372036854775808",
    "18446744073709551615", "18446744073709551616", "99999999999999999999999999", "0x0", "0x7ffffffc", "0x80000000",
    "0x80000001", "0x80000002", "0x80000004", "0x80000008", "0x8000000C", "0x80001000", "0x8000fffc", "0x80010000",
    "0x8001FFFC", "0x80020000", "0x83fffffc", "0x84000000", "0xfffffffc", "0xffffffff", "0x100000000", "0xfffff",
    "0x100000", "0b101", "0o17", "1_000", "007", "+4", "1.5", "1e9", "-0", "nan", "inf", "1979-05-27T07:32:00Z",
    "0x", "0xg", "1__0", NULL};

const char *const signs[] = {
    "\"", "'", "\\", "\"\"\"", "'''", "[", "]", "[[", "]]", "{", "}", "=", ",", ".", ":", "#", "(", ")", "-", "\r",
    "\n", "\r\n", "\t", " ", "\f", "\v", "\x7f", "\x01", "\x1b[2J", "\xff", "\xc3", "\xc2\x85", "\xe2\x80\xa8",
    "\xed\xa0\x80", "\xf4\x90\x80\x80", "\xef\xbb\xbf", "\xf0\x9f\x92\xa5", "\\u0000", "\\uD800", "\\x41",
    "{{{{{{{{{{{{{{{{", "[[[[[[[[[[[[[[[[[[[[[[[[[[[[[[[[", "a.b.c.d.e.f.g.h = 1\n", "=====", NULL};

#define LETTERS_16 "aaaaaaaaaaaaaaaa"
#define LETTERS_64 LETTERS_16 LETTERS_16 LETTERS_16 LETTERS_16
#define LETTERS_255 LETTERS_64 LETTERS_64 LETTERS_64 LETTERS_16 LETTERS_16 LETTERS_16 "aaaaaaaaaaaaaaa"

static const char *const manifest_words[] = {
    "version", "ram_kib", "tables", "upper", "leaf", "spill", "lookaside", "quantum", "module", "hart", "name",
    "image", "at", "perm", "words", "wx", "heap", "heap_words", "stack", "stack_words", "gates", "returns",
    "on_fault", "seal", "input", "input_at", "input_words", "input_perm", "entry", "from", "true", "false", "[]", "{}",
    "[[]]", "\"r\"", "\"rw\"", "\"rx\"", "colour", "\"\"", "0x80000000", "-", "x", NULL};

static const char *const manifest_texts[] = {
    "\"\"", "\"r\"", "\"rw\"", "\"rx\"", "\"w\"", "\"segments\"", "\"multilevel\"", "\"packed\"", "\"return\"",
    "\"kill\"", "\"m\"", "\"driver\"", "\"proto\"", "\"console\"", "\"a\"", "\"driver.elf\"", "\"proto.elf\"",
    "\"console.elf\"", "\"leaves.elf\"", "\"first.toml\"", "\"order.bin\"", "\"absent\"", "\".\"", "\"..\"",
    "\"/\"", "\"/dev/null\"", "\"-x\"", "\"a/b\"", "\"m.elf/\"", "\"receive\"", "\"start\"", "\"idle\"",
    "\"print\"", "\"Upper\"", "\"a b\"", "\"\\u0000\"", "\"\\u0007\\u001b[2J\"", "\"\\u0085x\"", "\"\\n\"",
    "\"\xc3\xa9\"", "'literal'", "\"\"\"\nlong\"\"\"", "\"" LETTERS_16 LETTERS_16 "\"",
    "\"" LETTERS_16 LETTERS_16 "a\"", "\"" LETTERS_255 "\"", "\"" LETTERS_255 "a\"", "true", "[]", "{}", NULL};

static const char *const manifest_lines[] = {
    "tables = \"segments\"\n", "tables = \"multilevel\"\n", "tables = \"packed\"\n", "version = 2\n",
    "version = 1\n", "ram_kib = 64\n", "ram_kib = 65536\n", "ram_kib = 16384\n", "lookaside = 8\n",
    "lookaside = 64\n", "quantum = 1000000\n", "quantum = 7\n", "upper = 0\n", "upper = 2\n", "leaf = 0\n",
    "leaf = 1\n", "leaf = 262144\n", "spill = 0\n", "spill = 1048576\n", "[[module]]\n", "[[hart]]\n", "[module]\n",
    "[hart]\n", "[[module.gates]]\n", "module = []\n", "hart = []\n", "name = \"m\"\n", "name = \"again\"\n",
    "at = 0x80000000\n", "at = 0x80008000\n", "perm = \"rx\"\n", "perm = \"rw\"\n", "words = [0x73]\n",
    "words = []\n", "words = [4294967296]\n", "words = [-1]\n", "words = [\"\"]\n", "image = \"leaves.elf\"\n",
    "image = \"absent\"\n", "image = \"driver.elf\"\n", "wx = \"rw\"\n", "wx = \"rx\"\n",
    "heap = 0x80008000\nheap_words = 64\n", "heap = 0x80008000\n", "heap_words = 16777216\n", "heap = 0xfffffffc\n",
    "stack = 0x8000c000\nstack_words = 16\n", "stack_words = 1048576\n", "stack = 2\n", "gates = []\n",
    "gates = [{ entry = 0x80000000, from = [\"driver\"] }]\n",
    "gates = [{ entry = \"start\", from = [\"proto\", \"proto\"] }]\n", "gates = [{ entry = 1, from = [] }]\n",
    "gates = [{ from = [\"m\"] }]\n", "gates = [{}]\n", "gates = [1, {}]\n", "returns = []\n",
    "returns = [0x80000000]\n", "returns = [\"idle\", \"idle\"]\n", "returns = [0x80000002]\n",
    "on_fault = \"kill\"\n", "on_fault = \"return\"\n", "seal = true\n", "seal = 1\n",
    "input = \"order.bin\"\ninput_at = 0x8000a000\ninput_words = 9\n", "input = \"order.bin\"\n",
    "input = \"..\"\n", "input = \"/dev/zero\"\n", "input_at = 0x80000000\n", "input_at = 0xfffffffc\n",
    "input_words = 1\n", "input_words = 16777216\n", "input_perm = \"rw\"\n", "input_perm = \"rx\"\n",
    "entry = \"idle\"\n",
    "entry = 0x80000004\n", "entry = 3\n", "module = \"m\"\n", "module = \"proto\"\n", "unknown = 1\n",
    "\"version\" = 1\n", "version.x = 1\n",
    "[[module]]\nname = \"b\"\nat = 0x80009000\nperm = \"rw\"\nwords = [1, 2, 3]\n[[hart]]\nmodule = \"b\"\n",
    "[[module]]\nname = \"b\"\nimage = \"leaves.elf\"\n", "# \xc3\xa9\n",
    "x = [[[[[[[[[[[[[[[[[[[[1]]]]]]]]]]]]]]]]]]]]\n", "\n", NULL};

static const char *const manifest_parts[] = {
    "[", "x=[", "{a=", "x={a=", "a.", "\n", "\"", "'", "#", " ", "[[module]]\n", "[[hart]]\nmodule=\"m\"\n", "0",
    "_1", "9", "[a.", "1,", "\\", "\"a\".", "[[module.gates]]\n", "x=1\n", "\xc3\xa9", "=", "]", NULL};

const struct language manifests = {manifest_words, manifest_texts, manifest_lines, manifest_parts};

static const char *const source_words[] = {
    "lui", "auipc", "jal", "jalr", "beq", "bne", "blt", "bge", "bltu", "bgeu", "lb", "lh", "lw", "lbu", "lhu", "sb",
    "sh", "sw", "addi", "slti", "sltiu", "xori", "ori", "andi", "slli", "srli", "srai", "add", "sub", "sll", "slt",
    "sltu", "xor", "srl", "sra", "or", "and", "fence", "ecall", "ebreak", "mul", "mulh", "mulhsu", "mulhu", "div",
    "divu", "rem", "remu", "li", "la", ".text", ".data", ".at", ".word", ".byte", ".ascii", ".bss", "zero", "ra",
    "sp", "gp", "tp", "t0", "t6", "s0", "s1", "s11", "a0", "a7", "x0", "x31", "x32", "x", "fp", "start", "next",
    "idle", "line", "sum", "table", "receive", "label:", "0(sp)", "-2048(ra)", "2048(ra)", "ADDI", "Start", "_",
    NULL};

static const char *const source_texts[] = {
    "\"\"", "\"packed\"", "\"\\n\"", "\"\\0\"", "\"\\\"\"", "\"\\\\\"", "\"\\t\"", "\"\\\"", "\"\x01\"",
    "\"\xc3\xa9\"", "\"#\"", "\"" LETTERS_255 "\"", "\"a\" \"b\"", NULL};

static const char *const source_lines[] = {
    ".text 0x80000000\n", ".text 0x80000002\n", ".text 0xfffffffc\n", ".data 0x80001000\n", ".data 0\n", ".data\n",
    ".at 0x80001234\n", ".at 0\n", ".at 0xffffffff\n", ".at 0x803ffffc\n", ".at 0x80400000\n", ".at start\n",
    ".word 1, 2, 3\n", ".word start, -1\n", ".word 4294967296\n", ".word\n", ".byte 1\n", ".byte -129\n",
    ".byte 256\n", ".ascii \"x\"\n", ".ascii \"open\n", "start:\n", "start: start:\n", "idle: jal zero, idle\n",
    "new: .word new\n", "li a0, 0xffffffff\n", "li a0, idle\n", "la a0, nowhere\n", "la a0, start\n", "jal ra, 2\n",
    "jal ra, 1\n", "jal ra, 1048576\n", "jal ra, -1048576\n", "beq a0, a1, 4096\n", "beq a0, a1, -4096\n",
    "beq a0, a1, start\n", "lw a0, 0 (sp)\n", "lw a0, (sp)\n", "lw a0, 2047(sp)\n", "sw a0, -2049(sp)\n",
    "slli a0, a0, 32\n", "lui a0, 0x100000\n", "fence 0x3fffff\n", "fence 0x400000\n", "ecall # remark\n",
    "ecall ecall\n", "addi a0, a0\n", "addi a0, a0, - 5\n", "addi,a0,a0,5\n", "addi a0 a0 5\n", ":\n", "a b c d\n",
    "  \t \n", "#\n", "\"\n", ",\n", LETTERS_64 ": .word 0\n", LETTERS_64 "b: .word 0\n", "\xc3\xa9: .word 0\n",
    "ecall\r\n", "ecall\r\r\n", "\r\n", NULL};

static const char *const source_parts[] = {
    ".word 0\n", "a:", "(", ")", ",", "\"", "#", "\n", " ", "\\", ".word 1,", ".byte 1,2,", "1,", "0", "ecall\n",
    "li a0,1\n", ".ascii \"a\"\n", ".text 0x80000000\n", "-", "la a0,start\n", "beq a0,a1,start\n", "\t",
    ".at 0x803ffff0\n", "l", "0(", NULL};

const struct language sources = {source_words, source_texts, source_lines, source_parts};

const uint64_t corners[48] = {
    0, 1, 2, 3, 4, 5, 6, 7, 8, 10, 15, 16, 17, 31, 32, 33, 40, 52, 63, 64, 65, 127, 128, 243, 255, 256, 257, 0x7fff,
    0x8000, 0xffff, 0x10000, 0xffff0, 0x100000, 0xffffff, 0x1000000, 0x1000001, 0x7fffffff, 0x80000000, 0x80001000,
    0x80010000, 0x84000000, 0xfffffffc, 0xffffffff, 0x100000000, 0x7fffffffffffffff, 0x8000000000000000,
    0xfffffffffffffffc, 0xffffffffffffffff};
