/* mbrb: announcements among the units of a cascade, without a master. The C interface, for C99 and C++11.
 *
 * A cascade has n units. Any t of them may be faulty, and each sending may miss d sound ones; n > 3t + 2d. A unit
 * announces a body of 16 bytes, takes the bundles that come in, and sends what the calls tell it to send. It delivers a
 * body once a quorum of units has signed it; how many these are, the site chooses (section 7). No two sound units
 * deliver different bodies in one slot (a day, a sender, a number from 0 to 15), whatever faulty units send and
 * whatever is lost, late, twice or out of order. This is proved of lists of calls of mbrb_open, mbrb_broadcast and
 * mbrb_receive, with every code and byte that they give; section 9 says what is argued of hosts that keep to this page.
 * The others only read records. mbrb_preview tells a display what taking a bundle would do, and does nothing of it.
 * mbrb_setpoint finds one setpoint among those that the units have announced, so that a unit with swapped sensors does
 * not drag the others along. Where a unit says two things in one slot, those that hear both note the second one in
 * their records, for people to see; where no unit hears both, mbrb_equivocators finds it in the records of two units,
 * and mbrb_check_equivocators says why it could not look. Every host needs sections 1 to 8, in this order; 9 to 11 are
 * to look up, 12 is for a host with a display and says what a note is worth, 13 is for one that acts on one setpoint of
 * the whole cascade, and 14 is for whoever has the records of two units.
 *
 *
 * 1. Link it
 *
 * `./install` puts this file, libmbrb.a and mbrb.pc under a PREFIX. Then
 *
 *     cc host.c $(pkg-config --cflags --libs mbrb)
 *
 * with PREFIX/lib/pkgconfig in PKG_CONFIG_PATH if pkg-config does not look there by itself.
 * Without installing, `tools/library` writes target/lib/libmbrb.a. It is x86-64 code for the System V calling
 * convention (section 11 has other processors). examples/host has a program to start from.
 *
 *
 * 2. A unit's day
 *
 *   1. Open the day, once: mbrb_open, with MBRB_RECORDS_SIZE(n) bytes of records.
 *   2. To announce, call mbrb_broadcast with the body.
 *   3. For each bundle that comes in, let the key chip check its signatures (section 6), then call mbrb_receive.
 *   4. After MBRB_ANNOUNCED(number), MBRB_SIGNED and MBRB_DELIVERED save (section 4), then send `out` to all units,
 *      this one among them: a unit delivers its own announcement by taking it back with enough signatures. After any
 *      other code there is nothing to send.
 *   5. After MBRB_DELIVERED act on the body in `out`, before or after sending it. It comes once for each slot.
 *   6. After MBRB_NOTED and MBRB_OTHER_BODY, and after MBRB_DELIVERED where `out` is without our bit, tell the installer
 *      that the bundle's sender says two things (section 12), and go on as before.
 * A code from 1 to 99 is a refusal: no byte has changed, and the number says why. Section 8 says what to do. A preview
 * is none of these steps, and comes between them as often as a display wants it (section 12). To ask for the setpoint
 * of the whole cascade is a part of acting, for a host that heats by it (section 13). To compare the records of two
 * units is no part of a unit's day (section 14).
 *
 *
 * 3. The memory that a call is lent
 *
 * - Each pointer has at least as many bytes behind it as the length beside it says, until the call is back. No pointer
 *   is null, not even one whose length is 0. Any alignment will do, and what `out` holds before does not matter.
 * - The buffers of a call do not overlap, but for `first` and `second` of section 14: these two are only read, and may
 *   overlap or be the same.
 * - Nobody else writes to them during the call, nor reads those that are not declared const: no interrupt, no other
 *   core, no device.
 * - Calls on different records may run at once, since nothing is kept between calls. On the same records they come one
 *   after the other: a lock for two tasks spans the comparison of days (section 4), an opening, the call with the
 *   block's day, the saving, and the copying of `out`. It spans mbrb_preview, mbrb_setpoint, mbrb_equivocators and
 *   mbrb_check_equivocators too. These four only read the records, so that several of them may run at once on the same
 *   ones, each preview with its own `out`, while no other call does.
 * A call is safe with all bytes, lengths and numbers that keep to this.
 *
 *
 * 4. The records, their day, and saving them
 *
 * A unit has one buffer of records a day. Only the calls write to it, and it is kept until the day is over. It is what
 * the unit has signed: a unit that loses it can sign a second body in one slot, and counts as faulty for that day.
 *
 * The records do not hold their day, so no call notices records of yesterday. With yesterday's records a unit refuses
 * today's bundle by 22 if that slot was delivered yesterday; or it sends a bundle of today with its bit, although it
 * has signed that body yesterday only. So keep the day beside the records, in one block that is saved together, and
 * give each call the day of the block, never that of the clock. The quorum lies beside the day: each call gets the
 * block's, which is the one that the day was opened with. n, t, d and own go with them too: all these change with a new
 * day only. The clock decides when a new day is opened. Compare the two before calls:
 *   - the clock's day is the block's: go on;
 *   - it is later: the block's day is over. Open the new day (mbrb_open), with the quorum that the site has set for it,
 *     see that the code is MBRB_OPENED, and save records, new day and its quorum before the first call of that day, all
 *     or nothing: after a loss of power the block is the old day with its records or the new day with zeros, never the
 *     old day with zeros nor the new day with old records. Bodies that are still to be acted on stay in the block; what
 *     is still to be sent may go;
 *   - it is earlier: the clock is wrong or was set back. Stay with the block. A day that was opened once is never
 *     opened again.
 * A clock that jumps ahead opens a day that the others have not opened, and the unit counts as faulty until they have.
 * So test the clock before opening: by a second source, or that it is no more than a few days later than the block's; a
 * unit that was off for longer then needs somebody who confirms the date. A day is any number that only grows and that
 * all units share; it may stand for an hour.
 *
 * What to save. A refusal changes no record, and neither do the four calls that only read (section 3). MBRB_KEPT,
 * MBRB_NOTED, MBRB_SIGNED and MBRB_DELIVERED of mbrb_receive change the MBRB_RECORD_SIZE bytes at
 * MBRB_RECORD_AT(sender, number), by the sender and number of the bundle taken. MBRB_ANNOUNCED(number) changes those at
 * MBRB_RECORD_AT(own, number). No other byte of the records changes, which is proved. mbrb_open changes all of them.
 *   - These 64 bytes are saved all or nothing: after a loss of power either the old or the new ones are there. A
 *     mixture can be a record that claims signatures which nobody gave.
 *   - After MBRB_SIGNED, MBRB_DELIVERED and MBRB_ANNOUNCED(number) the record is saved before `out` is sent, before the
 *     body is acted on, and before the next call. `out`, and that it is still to be sent and its body to be acted on,
 *     are saved in the same step, all or nothing, and no later call's take their place before that is done. If `out` is
 *     saved and its record is not, the unit sends a signature that it will not remember; if the record is saved and
 *     `out` is not, it may never be sent. A second copy, and then a mark that makes it the valid one, is such a step;
 *     so is an entry of a journal.
 *   - MBRB_KEPT need not be saved before the next sending, nor at all. What is lost with it is signatures of others, as
 *     if that bundle had not come in: for delivery it has not reached this unit. The same holds for every call whose
 *     change is lost before it is saved.
 *   - MBRB_NOTED need not be saved either. What is lost with it is the note alone: for delivery the bundle has reached
 *     this unit.
 *   - Where saving fails, send nothing, and go on as after a restart.
 *
 *
 * 5. After a restart
 *
 *   1. Load the block as it was saved last: day, quorum, records, each `out` that is still to be sent, each body that
 *      is still to be acted on, and the signatures of section 6. An older copy is not it. If that cannot be done, the
 *      unit has forgotten what it signed: go to "A lost block" below.
 *   2. Act on each body that is still to be acted on. The calls do not tell it again: they answer 22 from now on. Where
 *      power fails between acting and writing that down, it is acted on twice; where that does harm, write it down
 *      first. A host of section 13 asks for the setpoint too, whether or not a body is left.
 *   3. Compare the block's day with the clock's, as in section 4. If the clock's is later, open the new day and go on
 *      at 6: what was still to be sent is of yesterday, and is refused by all who have opened the new day.
 *   4. Else do not open the day again.
 *   5. Send each `out` that is still to be sent. Where it was sent already, the same bytes again do no harm.
 *   6. Go on with announcing and taking.
 *
 * A lost block. Without it the unit cannot tell which days it has opened, and to open one a second time lets it sign a
 * second body: two sound units may then deliver different ones. So keep the last opened day a second time, apart from
 * the block: a counter of the key chip's will do. At each opening save it first, then the block. After a loss make no
 * call, not even mbrb_open, until the clock's day is later than that one. Where it is lost too, somebody who knows the
 * date sets the clock, and the unit is silent until a day later than that date and than every day that its clock may
 * have shown before, right or wrong; where nobody can say that, it gets a new key. The same goes for a unit that takes
 * the place of another one, with its number and key. That a unit is new is known from its installation, not from a
 * missing block.
 *
 *
 * 6. Signatures
 *
 * Bit u of a bundle's signers stands for a signature of unit u on day, sender, number and body: on bytes 0 to 7 and 16
 * to 31 of the bundle, say, and on the same at all units. The library sees the bits alone.
 *   - Coming in: bundle and signatures are copied, so that the radio cannot change them. The key chip checks each
 *     signature of units 0 to n - 1, our own as well, before the call, and the host clears the bit of each that does
 *     not hold. Bits at n and above may stay: the call refuses them. All key chips judge alike; where one clears a bit
 *     that others do not, that bundle has not reached its unit.
 *   - Going out: the key chip adds the signatures that the bits of `out` name. Ours is made where our bit is set, after
 *     the record is saved, when `out` is sent, and for no other body in that slot. The others came in with bundles of
 *     that slot and body, and are stored.
 *   - Storing is the host's, in the key chip or beside it. After MBRB_SIGNED, MBRB_KEPT and MBRB_DELIVERED store the
 *     signatures whose bits were left in the bundle; one whose bit was cleared is thrown away, and takes the place of
 *     none. After a refusal and after MBRB_NOTED store none here: what is noted is not sent, and a bundle that delivers
 *     it after all brings its signatures with it. Before a record is saved, every other unit's signature whose bit it
 *     has at MBRB_SIGNERS_AT is saved, also those that came with an MBRB_KEPT that was itself not saved. The bits of a
 *     note need none.
 *   - Store a slot's body with its signatures. Where another body comes to be stored, begin the slot anew: it does so
 *     where MBRB_DELIVERED gives an `out` without our bit, and may do so after a restart. An `out` of the first body
 *     need not be sent any more. Signatures may be deleted once the delivered `out` is sent for the last time, and
 *     yesterday's after the opening is saved.
 *   - Room: with s bytes a signature at most n * s for a slot, and 16 * n slots, so 16 * n * n * s bytes: for s = 64
 *     that is 16 KiB with 4 units, 64 KiB with 8, and 4 MiB with 64.
 *
 *
 * 7. The cascade, its quorum and its radio
 *
 *   - n, t, d, day and quorum are the same at all units, and own is different at each. At most t units are faulty; a
 *     unit that breaks sections 3 to 6, or sends or signs for what a preview left, is one of them.
 *   - The quorum is how many units have to sign a body before a unit delivers it. The site chooses it, for all its
 *     units alike: at least MBRB_LEAST_QUORUM(n, t), which ordinary sites take, and at most MBRB_MOST_QUORUM(n, t, d).
 *     With another one every call refuses (1). A stricter one than the least is for sites that want more signatures
 *     before a body is acted on, hospitals for instance. It costs time: bodies may be delivered later, and one of a
 *     faulty sender perhaps not at all. All that this page says holds for each quorum from the least to the most: with
 *     the most, too, bodies are delivered while t units are faulty and each sending misses d. With more faults or
 *     losses than that, the stricter a quorum is, the sooner it is out of reach.
 *   - The quorum changes between days only, and at all units together: set it at all of them, with the day from which
 *     it holds, before the first of them opens that day. A unit whose quorum differs from the others' on a day is
 *     outside of what is promised, and counts as faulty for that day. With a stricter quorum on the same day a record
 *     that was delivered with fewer signers is not sound any more (21).
 *   - The same bytes may be sent again, at any time and by anybody. To take them once more changes nothing, unless a
 *     restart has lost what they had changed.
 *   - For delivery each bundle that a sound unit sends comes to be taken at all sound units but d. It does not matter
 *     who brings its 32 bytes. The sending unit takes it too, or is one of the d. Then all sound units but d deliver
 *     what a sound unit announces or delivers. A slot in which more is lost does not spoil delivery in another one, and
 *     agreement never depends on any of this.
 *   - The library acknowledges nothing and repeats nothing: against losses the host repeats each `out`. The delivered
 *     `out` of any unit has a quorum in it and is enough for one that missed all else, so keep it, with its signatures,
 *     for as long as it is to be repeated.
 *   - A bundle of another day is refused by 4, and has not reached the unit. So announce nothing so late in a day, nor
 *     so soon after opening it, that clocks and radio leave other units at another one; or repeat `out` until all have
 *     opened. A bundle of a later day may be set aside and taken after the opening.
 *
 *
 * 8. What to do at a refusal
 *
 *   1, 9, 10, 20   a mistake in the host: a wrong table or length. With a quorum out of range no day is opened (1), so
 *                  look at it when the site sets it
 *   2, 3, 5 to 8   noise on the radio, or a faulty unit: drop the bundle
 *   4              a bundle of another day: early or late, or a clock is wrong there or here
 *   22             usual: others send on what they deliver
 *   24             its sender has signed three bodies in one slot and is faulty: as after MBRB_NOTED (section 12), but
 *                  this one is not noted. The slot may still be delivered
 *   25             no more announcements until the next day
 *   27             usual: too few senders have a setpoint that is delivered here. Go on as before (section 13)
 *   28             a mistake of whoever compares: the records are said to be of one unit twice (section 14)
 *
 * 21, MBRB_UNSOUND_RECORD: the record is not one that these calls leave. The day was not opened (which is not noticed
 * where the bytes happen to be zero), the table is another one (with a stricter quorum, for instance), 64 bytes are
 * half old and half new, or something else wrote there. Taking, preview and announcing look at the records that they
 * need; mbrb_setpoint looks at all of them, and may be the first to see it. Make no more calls on these records, do not
 * repair them, and do not open this day again. Where a copy holds exactly what was saved last, load it as after a
 * restart; if 21 or 23 comes again after that, do not load again. Otherwise the unit is silent until it opens a day
 * that is later than the last opened day kept apart (section 5), since the day in the block may be damaged too; the
 * others bear that, as one of their t. All this is for a unit and its own records. Where copies are compared, section
 * 14 says what 21 is.
 *
 * 23, MBRB_OWN_SIGNATURE_UNKNOWN: the bundle has our bit, and our record does not hold its body. Let the key chip look
 * at our signature again.
 *   - It does not hold: the host has not cleared the bit (section 6). Mend that; nothing has changed.
 *   - It holds: we have signed what our records do not know. They were lost or are older than what was sent, or another
 *     unit has our key. Stop as at 21.
 *
 *
 * 9. What is proved, and what is argued
 *
 * Proved of the functions, for all bytes, lengths and numbers: each code, each byte afterwards, that a refusal changes
 * none, that taking and announcing write to the record of their slot and to no other, that taking answers by this
 * record, the input, the table and the lengths, and announcing by our own sixteen records besides, that a preview gives
 * taking's code and `out` and leaves the records, that mbrb_setpoint leaves them too and stays between the setpoints of
 * sound senders, as section 13 says, that what a record notes changes neither what is delivered nor what is sent, which
 * units mbrb_equivocators names, and that a call ends.
 * Proved of whole lists of calls at sound units, for each quorum that is allowed: agreement, at most one delivery and
 * two sendings in a slot, only announced bodies in a sound sender's slots, and delivery as in section 7; that 21 does
 * not come there, nor 23 where the bits are true; that previews between the calls change nothing of it; that what
 * mbrb_setpoint pools of a sound sender is something that this sender announced; that signers in a record are worth
 * what section 12 says; and that the records of two sound units, copied at one moment of the list or at two, are
 * compared and name no sound unit (section 14). docs/CLAIMS.md has each with its file.
 *
 * Argued and not proved: that a host which keeps to sections 3 to 7 and 12 to 14 is such a list. The lists know no
 * restart. A call whose change was lost before anything of it was sent or acted on is left out of the list: its answer
 * was seen by nobody, and what is proved of records says that calls on other slots give the same answers without it.
 * (Announcing looks at several slots, so an announcement is saved before the next call.) With a lost MBRB_KEPT all of
 * agreement stands, and in delivery that bundle counts as one that has not reached this unit, until it comes again.
 * With a lost MBRB_NOTED agreement and delivery stand as if it were not lost: what a record notes changes none of them.
 * tests/power_cuts tries it on examples/host. Assumed: the Rattle kit, its logic with its checker, front end and back
 * end, and the host's memset.
 *
 *
 * 10. What it costs
 *
 *   - Memory: MBRB_RECORDS_SIZE(n) bytes of records, which the host gives. The library allocates nothing and keeps no
 *     data of its own.
 *   - Stack: 92 bytes for mbrb_broadcast, 121 for mbrb_receive, 101 for mbrb_preview, 24 for mbrb_open, 236 for
 *     mbrb_setpoint, 313 for mbrb_equivocators, 169 for mbrb_check_equivocators, whatever they are given; and below
 *     mbrb_open what the host's memset takes. Besides, up to 48 bytes of arguments that the caller puts there. Each
 *     figure is the deepest chain of frames in the machine code, return addresses included: tests/call_graph adds them
 *     up, and tests/footprint sees the same on a stack that was painted before.
 *   - No recursion: none of these functions calls itself, and none that they reach in the library does, directly or by
 *     another. All are called by name, none by a pointer. tests/call_graph looks at the whole call graph, that of the
 *     program which is proved and that of the machine code. The memset below mbrb_open is the host's, and not looked
 *     into.
 *   - Code: 1,622 bytes for mbrb_open and mbrb_receive, 689 more where mbrb_broadcast is used, 1,247 more where
 *     mbrb_preview is, 890 more where mbrb_setpoint is, and 2,485 more where mbrb_equivocators or
 *     mbrb_check_equivocators is: there are four more members in the library, and a host that calls nothing of one does
 *     not link it. The one symbol that the library takes from the host is memset, for mbrb_open.
 *   - Registers: no floating-point register is used, and of the vector registers xmm0 alone, by mbrb_broadcast and
 *     mbrb_setpoint. The first clears the second half of a record by it, the second 128 bytes of its stack. So call
 *     these two only where vector registers are saved for what they interrupt.
 *   - mbrb_receive uses 65 bytes below the stack pointer (the red zone of the calling convention), mbrb_broadcast 36,
 *     mbrb_preview 45, mbrb_setpoint 124, mbrb_equivocators 17 and mbrb_check_equivocators 17, counted above. Where
 *     interrupts run on the stack of what they interrupt, they must leave the 128 bytes below it alone, as the
 *     convention asks.
 *   - Time: mbrb_open and mbrb_setpoint go through all records, mbrb_equivocators and mbrb_check_equivocators through
 *     those of both units, so that theirs grows with n. mbrb_broadcast goes through our own, and the others look at one
 *     record.
 *
 *
 * 11. A controller that is no x86-64
 *
 * This library is built for x86-64 only, so it does not link there. The proof is of the source and does not depend on
 * the processor: what is missing is a build for it. (The kit's compiler writes AArch64 code for Linux too; no build and
 * no test here uses that.) Meanwhile a PC can run this library for simulation and training, and be the measure for
 * another implementation: give both the same calls, random ones and broken ones too, and compare code, records and
 * `out` byte by byte. rust/ does that with one written in Rust, on a million calls; that one is for tests and nothing
 * to ship. What such a comparison finds is found; it is no proof.
 *
 *
 * 12. A service display
 *
 * mbrb_preview tells what taking a bundle would do now. It gives the code that mbrb_receive would give with the
 * same arguments, and leaves in `out` the bytes that this would leave there; the records are lent for reading and stay
 * as they are. It is none of the calls that the lists of section 9 are made of. It may be called as often as wanted and
 * changes nothing for any unit, which is proved (docs/CLAIMS.md, R14.20).
 *
 * A display may show
 *   - that the bundle would be kept, noted, signed, delivered or refused, and why (section 8);
 *   - the signers that the record would have: at MBRB_SIGNED and MBRB_DELIVERED those in `out`, at MBRB_KEPT those of
 *     the record and of the bundle together;
 *   - at MBRB_NOTED those that the note would have: of the note that is there and of the bundle together.
 * It shows this as of now. A preview holds as long as the record of its slot stays the same: until a bundle of that
 * slot is taken, the day is opened, we announce in a slot of ours, or a restart loses an MBRB_KEPT or an MBRB_NOTED
 * that was not saved.
 *
 * Before a preview the host does what it does before taking, or else taking would do something else than was shown:
 *   - It compares the days (section 4), under the lock that spans the preview (section 3). Where the clock's is later,
 *     taking opens the new day first, and there is nothing to show of the old one.
 *   - It copies the bundle, the key chip checks the signatures, and the bit of each that does not hold is cleared
 *     (section 6). Taking checks them again, or is given that very copy: never a bundle whose bits nobody has
 *     checked.
 *
 * After a preview it does nothing of what it does after taking:
 *   - `out` is never sent, and no signature is made for it: our record would not know of that signature, which could be
 *     our second in its slot. Use a buffer for `out` that is apart from the one that is sent from.
 *   - Nothing is saved, and no signature that came with the bundle is stored.
 *   - Nobody acts on the body: MBRB_DELIVERED means that it would be delivered, not that it is.
 *   - The bundle is still to be taken. Until then it has not reached this unit (section 7).
 * At 21 and 23 the unit does what section 8 says, at the latest when taking gives them: they tell of its records.
 *
 * A second word. A sound unit signs one body in a slot. Where our record holds a body and a bundle brings another one,
 * with too few signers to deliver it, mbrb_receive notes it: the second half of the record gets this body and the
 * bundle's signers. The code is MBRB_NOTED, then and each time that this body comes again; its signers join those of
 * the note. Another one yet, a third body, is refused (24). Where a single bundle with another body than the held one
 * has a quorum, it is delivered as ever (MBRB_DELIVERED), whatever is noted, and the note is from then on what the
 * record held, with our own bit. Once the slot is delivered no more is noted (22).
 *   - A note is there where the eight bytes at MBRB_NOTED_SIGNERS_AT are not all zero. They are its signers, and its
 *     body is at MBRB_NOTED_BODY_AT. It stays until the next opening, or until a quorum puts another one in its place.
 *   - What is noted is not sent, acted on, pooled (section 13) or counted: a quorum of noted signers delivers nothing.
 *     The cascade delivers what it would without notes.
 *
 * What a note is worth. Its sender is faulty: it has signed both bodies, that of the note and the one that the record
 * holds or has delivered. The same is so after 24. After MBRB_DELIVERED `out` is without our bit where our record held
 * another body until then, which is now the noted one. This needs no more than true bits (section 6), so tell the
 * installer: that unit, or whoever has its key, says two things. Of each other unit a bit says that it signed the body
 * beside it, be it held, delivered or noted; and in the records of all sound units together, the bit of a sound unit
 * stands beside one body of a slot at most. That there is no note says nothing: a faulty sender's two bodies need not
 * meet at a unit; section 14 looks for them in the records of two. Where the signatures are to be shown to others, the
 * host stores them apart from those of section 6: those that came with a noted bundle, and those that section 6 drops
 * where another body than the held one is delivered.
 *
 *
 * 13. One setpoint from many
 *
 * mbrb_setpoint is for a host that acts on one setpoint of the whole cascade. A unit that heats by the setpoint which
 * it has heard last is dragged along by any other one whose sensors are swapped. This call gives it a middle one of
 * those that the units have announced.
 *
 * A body is a setpoint if its first byte is MBRB_SETPOINT_TAG and bytes 3 to 15 are zero. Bytes 1 and 2 count
 * hundredths of a degree Celsius as a signed number, with the high byte first: 21.50 degrees are hexadecimal 0866, and
 * -0.05 are fffb. A unit announces one as it announces any body:
 *
 *     const uint8_t body[MBRB_BODY_SIZE] = {MBRB_SETPOINT_TAG, (uint8_t)((uint16_t)hundredths >> 8),
 *                                           (uint8_t)hundredths};
 *
 * where hundredths is an int16_t. It has sixteen numbers a day for all that it announces, so it announces its setpoint
 * after opening a day, and later where it changes by something that matters. All units take such bodies for setpoints
 * and for nothing else: one that a site gives another meaning is pooled all the same.
 *
 * What is pooled: of each sender, of its setpoints that this unit has delivered today, the one with the highest number,
 * which is the newest. All else is passed over: other bodies, whatever their number, and what is held and not
 * delivered, our own announcements among them. A sender that is in the pool stays there until the next day is opened,
 * by its last setpoint if it falls silent; there is no call that takes it out.
 *
 * What comes out: with m senders in the pool, the setpoint at place (m + 1) / 2, the fraction dropped, counted from 1
 * in rising order: the one in the middle, or the lower one of two. So it is always one of those in the pool, and no
 * mean. MBRB_IS_SETPOINT(code) tells that it is there, and MBRB_SETPOINT(code) what it is.
 *
 * What it is worth:
 *   - If at most t of the senders in the pool are faulty, it is not below the lowest nor above the highest setpoint
 *     that is pooled from sound ones. Nothing else is assumed, and any t senders may be the faulty ones: a unit with
 *     swapped sensors is one of them here, although it keeps to this page in all it sends.
 *   - In a cascade that keeps to this page, what is pooled from a sound sender is a setpoint that this sender announced
 *     that day. So the outcome lies between two that sound units have asked for, and that is why it can be acted on.
 * What it is not:
 *   - It need not be the same at two units at a time: one has delivered what is still on its way to the other. Two
 *     sound units that have delivered in the same slots have the same one.
 *   - Where between the lowest and the highest of the sound ones it lies, faulty ones may sway.
 *   - With more than t faulty senders in the pool it may be anything.
 *
 * When to ask: after each MBRB_DELIVERED, once that is saved (section 4), and after a restart (section 5, step 2),
 * since the block has the records and not the outcome. Nothing else changes it, but for an opening: what is pooled is
 * what was delivered (this is argued and not proved). The table is that of the other calls: the block's day and quorum,
 * under the lock (section 3). There is nothing to save and nothing to send afterwards.
 *
 * Where no setpoint comes out:
 *   - 27, MBRB_TOO_FEW_SETPOINTS: fewer than 2t + 1 senders are in the pool, and t faulty ones could decide. This is no
 *     error, and is so after each opening. Go on as before: by the unit's own setpoint, or by the last outcome. Silent
 *     faulty units cannot keep it so: n - t is at least 2t + 1, so it is over at a unit that has delivered a setpoint
 *     of each sound one; and once over it does not come again that day.
 *   - 21, MBRB_UNSOUND_RECORD: some record of the buffer is not sound, whether it would count or not. Do what section 8
 *     says. 1 and 20 are mistakes in the host.
 *
 *
 * 14. Two units' recordings side by side
 *
 * A faulty unit can say one thing to some units and another to others, and perhaps none of them hears both. Their
 * records have it all the same: mbrb_equivocators is given those of two units and names each unit whose bit stands in
 * them beside two bodies of one slot. It is for whoever has recordings, which are copies of units' records: a site
 * engineer with a laptop after a service visit, or a host to which copies come over the network. No unit needs it for
 * its day. examples/recordings is a program to start from, with a page for site engineers.
 *
 * What it is given: one table, and the records of two units, `first` of the unit with the number `own` and `second` of
 * that with the number `other`. Which of the two comes first changes nothing in who is named.
 *   - Both are of one day, and n, t, d and quorum are those of that day. No call can notice another day, since the
 *     records do not hold theirs. Each day the numbers start anew, so that in records of two days a sound unit has
 *     signed two bodies under one number, and it is named. So copy the unit's number, its day and its quorum with the
 *     records, and compare days and quorums before the call.
 *   - A copy is whole: what the unit has saved, all or nothing (section 4), or its records in working memory, copied
 *     under the lock (section 3). It is unchanged: 21 does not see all damage, and a body with one bit changed looks
 *     like a second one, so let a checksum go with it. The two copies need not be of one moment, nor of the end of the
 *     day. On copies there is nothing to lock, to save or to send.
 *
 * What comes out is a word of bits, as in a bundle: unit u is the bit of weight 2 to the power u, and
 * MBRB_IS_NAMED(word, u) reads it. A slot has two records here, and each may have a body that is held or delivered and
 * one that is noted. Unit u is named exactly if in some slot it is a signer of two of these four, and they differ.
 * Where a slot has two bodies its sender is always named, since no body stands in a sound record without the sender's
 * bit. The word is no code: 1 names unit 0. It is 0 where nobody is named, and also where nothing is compared; which of
 * the two it is, mbrb_check_equivocators tells for the same arguments, by MBRB_COMPARED or the refusal. So ask for the
 * word first, and if it is 0 for the code. Where nothing is refused the code costs less than the word: all records are
 * tested for it, and nobody is looked for.
 *
 * What it proves:
 *   - If the bits of both records are true (section 6), a named unit, or whoever has its key, has signed two bodies in
 *     one slot.
 *   - From two sound units that have opened the day, in a cascade that keeps to this page, nothing is refused and no
 *     sound unit is named. So those that are named are faulty, and they are t at most. Where more than t are named,
 *     something is wrong with what was compared: the copies are of two days, or one is damaged in a way that 21 does
 *     not see, or has bits that are not true (section 6), or one of the two units is faulty, or more than t units are.
 * What it does not prove:
 *   - That a unit which is not named is sound. It may be silent, or wrong in what it says to all alike; or its two
 *     bodies have not met in these records, and meet in those of another pair.
 *   - Anything, where one of the two units is faulty itself: the bits are then what that unit wrote, and can name
 *     anybody. Where a name has to convince others, show them the two signatures, which prove it whoever brings them. A
 *     host that is ready for this stores those that section 12 names too, and deletes none as long as they may be asked
 *     for.
 *   - Why. A unit that lost its block and signed a second time is named like one that lies, and counts as faulty for
 *     that day (section 4).
 *
 * Where nothing is compared:
 *   - 28, MBRB_SAME_UNIT: `own` and `other` are the same number. One copy was given twice, or has a wrong number. What
 *     one unit has noted by itself is named beside the records of any other one.
 *   - 21, MBRB_UNSOUND_RECORD: some record is not sound for the unit that the copy is said to be of. The copy is
 *     damaged or not whole, or its number, n, t, d or quorum are another unit's or another day's. Copy again. If 21
 *     stays, that unit's own records are such, and it does what section 8 says.
 *   - 20, and 1 where the table is not good with `own` or not with `other`, are mistakes of whoever compares.
 * `first` is looked at before `second`. Which of the two it was that 20 or 21 refused, mbrb_setpoint tells: given one
 * of them with its unit's number, it gives 20 and 21 for the same reasons.
 */
#ifndef MBRB_H
#define MBRB_H

#include <stddef.h>
#include <stdint.h>

#ifdef __cplusplus
extern "C" {
#endif

/* The version of this interface and of the formats below. CHANGELOG.md says what each number stands for. */
#define MBRB_VERSION_MAJOR 3
#define MBRB_VERSION_MINOR 1
#define MBRB_VERSION_PATCH 0
#define MBRB_VERSION "3.1.0"

/* Sizes of the buffers, in bytes. */
#define MBRB_BODY_SIZE 16
#define MBRB_BUNDLE_SIZE 32 /* a bundle that comes in, and `out` */
#define MBRB_RECORD_SIZE 64
#define MBRB_NUMBERS 16 /* slots of one sender in a day: numbers 0 to 15 */
#define MBRB_RECORDS_SIZE(n) ((size_t)(n) * MBRB_NUMBERS * MBRB_RECORD_SIZE)
#define MBRB_UNITS_MAX 64

/* The least and the most quorum that a site may choose (section 7), where n > 3t + 2d. Each is a uint32_t, is constant
 * where its arguments are, and evaluates each of them once. Where n <= 3t + 2d no quorum is allowed, and neither number
 * is of use: with n < t + d the most has wrapped round to almost 2 to the power 32. All of it is unsigned arithmetic,
 * which cannot trap. Whether a table is good is for the calls to say (1). */
#define MBRB_LEAST_QUORUM(n, t) ((uint32_t)(((uint32_t)(n) + (uint32_t)(t)) / 2u + 1u))
#define MBRB_MOST_QUORUM(n, t, d) ((uint32_t)((uint32_t)(n) - (uint32_t)(t) - (uint32_t)(d)))

/* A bundle, integers with the high byte first: where its fields start. The two bytes between number and signers are
 * zero. */
#define MBRB_DAY_AT 0     /* 4 bytes */
#define MBRB_SENDER_AT 4  /* 1 byte */
#define MBRB_NUMBER_AT 5  /* 1 byte */
#define MBRB_SIGNERS_AT 8 /* 8 bytes: unit u is the bit of weight 2 to the power u; in a record too */
#define MBRB_BODY_AT 16   /* 16 bytes, in a record too */

/* A body that is a setpoint (section 13): its first byte, and where the setpoint starts in it; the rest is zero. */
#define MBRB_SETPOINT_TAG 1
#define MBRB_SETPOINT_AT 1 /* 2 bytes */

/* Where the record of a slot starts in the records. Its first byte is the state below; signers and body lie as in a
 * bundle. Its second half is for a second body of the slot (section 12), and all zero without one. What is left is
 * zero. To save it, and for a display: of records that the calls have left. What is to be acted on stands in `out` at
 * MBRB_DELIVERED. */
#define MBRB_RECORD_AT(sender, number) (((size_t)(sender) * MBRB_NUMBERS + (number)) * MBRB_RECORD_SIZE)
#define MBRB_RECORD_EMPTY 0
#define MBRB_RECORD_HELD 1
#define MBRB_RECORD_DELIVERED 2
#define MBRB_NOTED_SIGNERS_AT 32 /* 8 bytes: a bit for each unit, as in a bundle */
#define MBRB_NOTED_BODY_AT 48    /* 16 bytes */

/* Code of mbrb_open. */
#define MBRB_OPENED 0 /* the day is open: every byte of the records is zero */

/* Codes of mbrb_receive, and of mbrb_preview. In a preview they say what taking would do: nothing is kept, signed,
 * delivered or noted, and there is nothing to save, to send or to act on (section 12). */
#define MBRB_KEPT 100      /* the signers join those of the record; nothing to send */
#define MBRB_SIGNED 101    /* we sign this body: save, then send `out` */
#define MBRB_DELIVERED 102 /* the body is delivered: save, then send `out` and act on the body */
#define MBRB_NOTED 103     /* its sender has signed another body too: noted for a display; nothing to send */

/* Codes of mbrb_broadcast, 200 to 215: 200 plus the number that the announced body has: save, then send `out`. */
#define MBRB_ANNOUNCED(number) (200u + (number))
#define MBRB_IS_ANNOUNCED(code) ((uint32_t)(code) - 200u < MBRB_NUMBERS)
#define MBRB_NUMBER(code) ((code) - 200u) /* the number in an announced code */

/* Codes of mbrb_setpoint, 65,536 to 131,071: 65,536 plus the two bytes of the setpoint as a number without sign.
 * MBRB_SETPOINT gives the hundredths of a degree in such a code, from -32,768 to 32,767, as an int16_t; it looks at the
 * lowest sixteen bits alone, so that it serves for the two bytes of a body too. Each of the two evaluates its argument
 * once, is constant where that is, and gives the same with every compiler: no conversion is out of range. */
#define MBRB_IS_SETPOINT(code) ((uint32_t)(code) >> 16 == 1u)
#define MBRB_SETPOINT(code) ((int16_t)((int32_t)(((uint32_t)(code) & 0xffffu) ^ 0x8000u) - 32768))

/* Whether a unit, from 0 to 63, is named in the word that mbrb_equivocators gives. Each argument is evaluated once, and
 * it is constant where they are. */
#define MBRB_IS_NAMED(word, unit) (((uint64_t)(word) >> (unit) & 1u) != 0)

/* Code of mbrb_check_equivocators. */
#define MBRB_COMPARED 0 /* nothing is refused: where mbrb_equivocators gives 0, nobody is named */

/* Refusals, 1 to 99: the first that applies in this order. No byte has changed. In brackets the calls that may give it:
 * O mbrb_open, B mbrb_broadcast, R mbrb_receive, P mbrb_preview, S mbrb_setpoint, E mbrb_check_equivocators, where
 * mbrb_equivocators gives 0. E tests 20 and 21 of `first` before those of `second`. */
#define MBRB_BAD_TABLE 1               /* [O B R P S E] n not 1 to 64, or n <= 3t + 2d, or own >= n, or for E
                                                        other >= n, or the quorum below MBRB_LEAST_QUORUM(n, t) or above
                                                        MBRB_MOST_QUORUM(n, t, d) */
#define MBRB_BUNDLE_LENGTH 2           /* [R P]         the bundle has not 32 bytes */
#define MBRB_RESERVED_BYTES 3          /* [R P]         byte 6 or 7 of the bundle is not zero */
#define MBRB_OTHER_DAY 4               /* [R P]         the bundle is of another day */
#define MBRB_SENDER_RANGE 5            /* [R P]         its sender is n or above */
#define MBRB_NUMBER_RANGE 6            /* [R P]         its number is above 15 */
#define MBRB_SIGNER_RANGE 7            /* [R P]         it has a signer at n or above */
#define MBRB_SENDER_UNSIGNED 8         /* [R P]         its sender has not signed it */
#define MBRB_BODY_LENGTH 9             /* [B]           the body has not 16 bytes */
#define MBRB_OUT_LENGTH 10             /* [B R P]       `out` has not 32 bytes */
#define MBRB_RECORDS_LENGTH 20         /* [O B R P S E] `records`, for E `first` or `second`, has not
                                                        MBRB_RECORDS_SIZE(n) bytes */
#define MBRB_UNSOUND_RECORD 21         /* [B R P S E]   the slot's record, one of ours before the first free one, or for
                                                        S and E any record, is none that these calls leave: section 8,
                                                        for E section 14 */
#define MBRB_ALREADY_DELIVERED 22      /* [R P]         the slot is delivered already: usual, nothing is wrong */
#define MBRB_OWN_SIGNATURE_UNKNOWN 23  /* [R P]         it has our signature, yet our record does not hold its body:
                                                        section 8 */
#define MBRB_OTHER_BODY 24             /* [R P]         another body is held and a third is noted, and fewer than a
                                                        quorum signed this one: its sender says three things */
#define MBRB_NO_FREE_NUMBER 25         /* [B]           our sixteen numbers of the day are used up */
#define MBRB_TOO_FEW_SETPOINTS 27      /* [S]           fewer than 2t + 1 senders have a delivered setpoint; this is
                                                        usual, nothing is wrong: section 13 */
#define MBRB_SAME_UNIT 28              /* [E]           `first` and `second` are said to be of one unit: section 14 */

/* Each function takes the table first: n, t, d, own, day and quorum; all but own are the same at all units. */

/* Opens a day: sets every byte of the records to zero. Once for a day, before its first call, and not again after a
 * restart (sections 4 and 5). Day and quorum have no part in the bytes: keep both beside them. */
uint32_t mbrb_open(uint8_t n, uint8_t t, uint8_t d, uint8_t own, uint32_t day, uint32_t quorum,
                   uint8_t *records, size_t records_len);

/* Announces a body: keeps it under our lowest free number and writes its bundle to `out`. */
uint32_t mbrb_broadcast(uint8_t n, uint8_t t, uint8_t d, uint8_t own, uint32_t day, uint32_t quorum,
                        const uint8_t *body, size_t body_len,
                        uint8_t *records, size_t records_len,
                        uint8_t *out, size_t out_len);

/* Takes a bundle that came in. `out` changes only where the code is MBRB_SIGNED or MBRB_DELIVERED. */
uint32_t mbrb_receive(uint8_t n, uint8_t t, uint8_t d, uint8_t own, uint32_t day, uint32_t quorum,
                      const uint8_t *bundle, size_t bundle_len,
                      uint8_t *records, size_t records_len,
                      uint8_t *out, size_t out_len);

/* For a display: tells by code and `out` what mbrb_receive would do with the same arguments, and does not do it. The
 * records stay as they are, and nobody sends, signs for, saves or acts on what it tells (section 12). */
uint32_t mbrb_preview(uint8_t n, uint8_t t, uint8_t d, uint8_t own, uint32_t day, uint32_t quorum,
                      const uint8_t *bundle, size_t bundle_len,
                      const uint8_t *records, size_t records_len,
                      uint8_t *out, size_t out_len);

/* Finds one setpoint for this unit among those that are delivered here: the lower middle one of the newest of each
 * sender. Nothing is written (section 13). */
uint32_t mbrb_setpoint(uint8_t n, uint8_t t, uint8_t d, uint8_t own, uint32_t day, uint32_t quorum,
                       const uint8_t *records, size_t records_len);

/* For whoever has the records of two units, of one day: names those whose bit stands in them beside two bodies of one
 * slot, a bit for each unit. `first` are the records of unit `own`, and `second` those of unit `other`. It gives 0 where
 * nobody is named, and where nothing is compared. Nothing is written (section 14). */
uint64_t mbrb_equivocators(uint8_t n, uint8_t t, uint8_t d, uint8_t own, uint32_t day, uint32_t quorum, uint8_t other,
                           const uint8_t *first, size_t first_len,
                           const uint8_t *second, size_t second_len);

/* What the 0 of mbrb_equivocators means, for the same arguments: MBRB_COMPARED, or why nothing is compared. */
uint32_t mbrb_check_equivocators(uint8_t n, uint8_t t, uint8_t d, uint8_t own, uint32_t day, uint32_t quorum,
                                 uint8_t other,
                                 const uint8_t *first, size_t first_len,
                                 const uint8_t *second, size_t second_len);

#ifdef __cplusplus
}
#endif

#endif
