
int surf_module_begin(surf_module *it) {
    it->top = @TOP@;
    if (!surf_memory_begin(&it->memory, @PAGES@, @MOST@)) return 0;
@LOADS@    return 1;
}

void surf_module_end(surf_module *it) { surf_memory_end(&it->memory); }

u64 surf_module_take(surf_module *it, u64 size) { return @TAKE@(it, size); }

void surf_module_give(surf_module *it, u64 at) { @GIVE@(it, at); }

void surf_module_call(surf_module *it, u64 said, u64 words, u64 words_size, u64 first, u64 first_size, u64 second,
                      u64 second_size, u64 third, u64 third_size, u64 room, u64 room_size) {
    @CALL@(it, said, words, words_size, first, first_size, second, second_size, third, third_size, room, room_size);
}
