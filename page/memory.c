/* Memory for the module of the page: what proved code calls for it, and what the page asks for buffers by.
 *
 * A block has a size of 2^k octets, the first 16 of which hold k; blocks that are free again are kept in a list each for their
 * k. The module's memory grows by pages of 65,536 octets and never shrinks. */
typedef unsigned long size;

struct block {
	size ok;
	void *at;
};

extern unsigned char __heap_base;

static size top;
static void *free_of[64];

static int kind_of(size wanted)
{
	int kind = 5;
	while (((size)1 << kind) < wanted + 16)
		kind++;
	return kind;
}

static void *new_block(int kind)
{
	if (!top)
		top = ((size)&__heap_base + 31) & ~(size)31;
	size end = top + ((size)1 << kind), have = (size)__builtin_wasm_memory_size(0) << 16;
	if (end > have && __builtin_wasm_memory_grow(0, (end - have + 65535) >> 16) == (size)-1)
		return 0;
	char *block = (char *)top;
	top = end;
	*(size *)block = kind;
	return block + 16;
}

void *page_take(size wanted)
{
	if (wanted > (size)1 << 31)
		return 0;
	int kind = kind_of(wanted);
	void *block = free_of[kind];
	if (!block)
		return new_block(kind);
	free_of[kind] = *(void **)block;
	return block;
}

void page_give(void *block)
{
	size kind = *(size *)((char *)block - 16);
	*(void **)block = free_of[kind];
	free_of[kind] = block;
}

struct block rattle_alloc(size wanted, size align)
{
	void *at = page_take(wanted);
	return (struct block){ at != 0, at ? at : (void *)align };
}

void rattle_dealloc(void *at)
{
	page_give(at);
}

struct block rattle_realloc(void *at, size kept, size wanted, size align)
{
	size kind = *(size *)((char *)at - 16);
	if (wanted + 16 <= (size)1 << kind)
		return (struct block){ 1, at };
	char *to = page_take(wanted);
	if (!to)
		return (struct block){ 0, (void *)align };
	__builtin_memcpy(to, at, kept < wanted ? kept : wanted);
	page_give(at);
	return (struct block){ 1, to };
}

void *memcpy(void *to, const void *from, size count)
{
	for (size n = 0; n < count; n++)
		((char *)to)[n] = ((const char *)from)[n];
	return to;
}

void *memmove(void *to, const void *from, size count)
{
	if ((char *)to < (const char *)from)
		return memcpy(to, from, count);
	for (size n = count; n > 0; n--)
		((char *)to)[n - 1] = ((const char *)from)[n - 1];
	return to;
}

void *memset(void *to, int octet, size count)
{
	for (size n = 0; n < count; n++)
		((char *)to)[n] = octet;
	return to;
}

int memcmp(const void *one, const void *other, size count)
{
	const unsigned char *a = one, *b = other;
	for (size n = 0; n < count; n++)
		if (a[n] != b[n])
			return a[n] - b[n];
	return 0;
}
