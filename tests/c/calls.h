/* The exported calls on a heap, a line each. A new call is a line more.

       CHANGES   the call is lent the record and the three buffers to change
       LOOKS     it takes the record by value and the three buffers to read
       WRITES    it looks, and writes words to a further buffer
       SAVES     it looks, and writes an image to a further buffer of bytes
       LOADS     it changes, and reads an image
       SEARCHES  it looks, writes words to a further buffer, and works in two more

   Then the call's name, its answer's struct, how many numbers it takes, and what each of them is (see heap.h). The file has no
   guard: it is included wherever a list of the calls is wanted, with the words above defined for it. */
CHANGES(format, answer, 2, BLOCKS, PACE)
LOOKS(read, read_answer, 2, BLOCK, WORD)
LOOKS(look, look_answer, 1, BLOCK)
CHANGES(store_number, answer, 3, BLOCK, WORD, NUMBER)
CHANGES(store_reference, answer, 3, BLOCK, WORD, TARGET)
CHANGES(set_root, answer, 1, TARGET)
CHANGES(allocate, answer, 2, HOLDER, WORD)
CHANGES(work, answer, 1, UNITS)
LOOKS(audit, answer, 0, NONE)
WRITES(export, export_answer, 2, START, WORD)
CHANGES(allocate_chain, answer, 3, HOLDER, WORD, LENGTH)
LOOKS(read_field, read_answer, 2, BLOCK, FIELD)
CHANGES(store_field_number, answer, 3, BLOCK, FIELD, NUMBER)
CHANGES(store_field_reference, answer, 3, BLOCK, FIELD, TARGET)
WRITES(export_objects, export_answer, 3, START, FIELDS, FIELD)
LOOKS(state, answer, 1, BLOCK)
SAVES(save, answer, 0, NONE)
LOADS(load, answer, 0, SAVED)
SEARCHES(why, why_answer, 1, BLOCK)
