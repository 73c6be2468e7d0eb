; Each function fills arrays of its own with zeros. fills.py leaves out the fills of those that are called gone, since no zero of them is
; read, and no others.

; What is handed is read, written, written if a number is not 0, and kept.
define internal fastcc i64 @"fills::read"(ptr noundef %a0) unnamed_addr #0 {
start:
  %x = load i64, ptr %a0, align 8
  ret i64 %x
}

define internal fastcc void @"fills::write"(ptr noundef %a0) unnamed_addr #0 {
start:
  store i64 7, ptr %a0, align 8
  ret void
}

define internal fastcc void @"fills::write_if"(ptr noundef %a0, i64 noundef %a1) unnamed_addr #0 {
start:
  %is.none = icmp eq i64 %a1, 0
  br i1 %is.none, label %done.2, label %some.1

some.1:                                           ; preds = %start
  store i64 7, ptr %a0, align 8
  br label %done.2

done.2:                                           ; preds = %some.1, %start
  ret void
}

define internal fastcc void @"fills::keep"(ptr noundef %a0, ptr noundef %a1) unnamed_addr #0 {
start:
  %n = ptrtoint ptr %a0 to i64
  store i64 %n, ptr %a1, align 8
  ret void
}

; It hands on what it is handed.
define internal fastcc i64 @"fills::hand_on"(ptr noundef %a0) unnamed_addr #0 {
start:
  %p = getelementptr i8, ptr %a0, i64 8
  %x = call fastcc i64 @"fills::read"(ptr noundef %p)
  ret i64 %x
}

; The second half of what it is handed comes to another place, and half of that is read.
define internal fastcc i64 @"fills::second_half"(ptr noundef %a0, ptr noundef %a1) unnamed_addr #0 {
start:
  %p = getelementptr i8, ptr %a0, i64 8
  call void @llvm.memcpy.p0.p0.i64(ptr %a1, ptr %p, i64 8, i1 false)
  %x = load i32, ptr %a1, align 8
  %x.wide = zext i32 %x to i64
  ret i64 %x.wide
}

; It calls itself.
define internal fastcc i64 @"fills::again"(ptr noundef %a0, i64 noundef %a1) unnamed_addr #0 {
start:
  %is.last = icmp eq i64 %a1, 0
  br i1 %is.last, label %last.1, label %next.2

last.1:                                           ; preds = %start
  store i64 3, ptr %a0, align 8
  ret i64 3

next.2:                                           ; preds = %start
  %left = add i64 %a1, -1
  %y = call fastcc i64 @"fills::again"(ptr noundef %a0, i64 noundef %left)
  ret i64 %y
}

; Of 8 bytes that are handed out 4 are written; the caller reads these, or the others.
define internal fastcc void @"fills::give_low"(ptr noundef %a0) unnamed_addr #0 {
start:
  %gone.low = alloca [8 x i8], align 8
  call void @llvm.memset.p0.i64(ptr %gone.low, i8 0, i64 8, i1 false)
  store i32 5, ptr %gone.low, align 8
  call void @llvm.memcpy.p0.p0.i64(ptr %a0, ptr %gone.low, i64 8, i1 false)
  ret void
}

define internal fastcc void @"fills::give_high"(ptr noundef %a0) unnamed_addr #0 {
start:
  %kept.high = alloca [8 x i8], align 8
  call void @llvm.memset.p0.i64(ptr %kept.high, i8 0, i64 8, i1 false)
  store i32 5, ptr %kept.high, align 8
  call void @llvm.memcpy.p0.p0.i64(ptr %a0, ptr %kept.high, i64 8, i1 false)
  ret void
}

; Zeros come to one place, and another is read: which is the same, as it is called.
define internal fastcc i64 @"fills::both"(ptr noundef %a0, ptr noundef %a1) unnamed_addr #0 {
start:
  %kept.both = alloca [8 x i8], align 8
  call void @llvm.memset.p0.i64(ptr %kept.both, i8 0, i64 8, i1 false)
  call void @llvm.memcpy.p0.p0.i64(ptr %a0, ptr %kept.both, i64 8, i1 false)
  %x = load i64, ptr %a1, align 8
  store i64 %x, ptr %a0, align 8
  ret i64 %x
}

; The same, with two places.
define internal fastcc i64 @"fills::apart"(ptr noundef %a0, ptr noundef %a1) unnamed_addr #0 {
start:
  %gone.apart = alloca [8 x i8], align 8
  call void @llvm.memset.p0.i64(ptr %gone.apart, i8 0, i64 8, i1 false)
  store i8 1, ptr %gone.apart, align 8
  call void @llvm.memcpy.p0.p0.i64(ptr %a0, ptr %gone.apart, i64 8, i1 false)
  %x = load i64, ptr %a1, align 8
  store i64 %x, ptr %a0, align 8
  ret i64 %x
}

; Four bytes of zeros come to a place of C, and to one that is a number in memory.
define internal fastcc void @"fills::to_c"(ptr noundef %a0) unnamed_addr #0 {
start:
  %kept.to_c = alloca [8 x i8], align 8
  call void @llvm.memset.p0.i64(ptr %kept.to_c, i8 0, i64 8, i1 false)
  store i32 6, ptr %kept.to_c, align 8
  call void @llvm.memcpy.p0.p0.i64(ptr %a0, ptr %kept.to_c, i64 8, i1 false)
  ret void
}

define internal fastcc void @"fills::elsewhere"(ptr noundef %a0) unnamed_addr #0 {
start:
  %kept.elsewhere = alloca [8 x i8], align 8
  call void @llvm.memset.p0.i64(ptr %kept.elsewhere, i8 0, i64 8, i1 false)
  %n = load i64, ptr %a0, align 8
  %p = inttoptr i64 %n to ptr
  call void @llvm.memcpy.p0.p0.i64(ptr %p, ptr %kept.elsewhere, i64 4, i1 false)
  ret void
}

; Bytes that are all written before one is read, or not all; and only those that are written are read.
define internal fastcc i64 @"fills::bytes"() unnamed_addr #0 {
start:
  %gone.whole = alloca [8 x i8], align 8
  %kept.part = alloca [8 x i8], align 8
  %gone.part = alloca [8 x i8], align 8
  %kept.before = alloca [8 x i8], align 8
  %kept.shorter = alloca [8 x i8], align 8
  call void @llvm.memset.p0.i64(ptr %gone.whole, i8 0, i64 8, i1 false)
  call void @llvm.memset.p0.i64(ptr %kept.part, i8 0, i64 8, i1 false)
  call void @llvm.memset.p0.i64(ptr %gone.part, i8 0, i64 8, i1 false)
  call void @llvm.memset.p0.i64(ptr %kept.before, i8 0, i64 8, i1 false)
  call void @llvm.memset.p0.i64(ptr %kept.shorter, i8 0, i64 8, i1 false)
  store i64 100, ptr %gone.whole, align 8
  %x0 = load i64, ptr %gone.whole, align 8
  store i32 200, ptr %kept.part, align 8
  %x1 = load i64, ptr %kept.part, align 8
  %part.4 = getelementptr i8, ptr %gone.part, i64 4
  store i16 400, ptr %part.4, align 4
  %x2.n = load i16, ptr %part.4, align 4
  %x2 = zext i16 %x2.n to i64
  %x3 = load i64, ptr %kept.before, align 8
  store i64 800, ptr %kept.before, align 8
  store i48 1600, ptr %kept.shorter, align 8
  %shorter.5 = getelementptr i8, ptr %kept.shorter, i64 5
  %x4.n = load i16, ptr %shorter.5, align 1
  %x4 = zext i16 %x4.n to i64
  %y0 = add i64 %x0, %x1
  %y1 = add i64 %y0, %x2
  %y2 = add i64 %y1, %x3
  %y3 = add i64 %y2, %x4
  ret i64 %y3
}

; Ways: one of two writes, both write, and a loop reads before it writes.
define internal fastcc i64 @"fills::ways"(i64 noundef %a0) unnamed_addr #0 {
start:
  %kept.one = alloca [8 x i8], align 8
  %gone.each = alloca [8 x i8], align 8
  %kept.loop = alloca [8 x i8], align 8
  call void @llvm.memset.p0.i64(ptr %kept.one, i8 0, i64 8, i1 false)
  call void @llvm.memset.p0.i64(ptr %gone.each, i8 0, i64 8, i1 false)
  call void @llvm.memset.p0.i64(ptr %kept.loop, i8 0, i64 8, i1 false)
  %is.none = icmp eq i64 %a0, 0
  br i1 %is.none, label %none.1, label %some.2

none.1:                                           ; preds = %start
  store i64 1, ptr %kept.one, align 8
  store i64 2, ptr %gone.each, align 8
  br label %join.3

some.2:                                           ; preds = %start
  store i64 4, ptr %gone.each, align 8
  br label %join.3

join.3:                                           ; preds = %some.2, %none.1
  %x0 = load i64, ptr %kept.one, align 8
  %x1 = load i64, ptr %gone.each, align 8
  br label %loop.4

loop.4:                                           ; preds = %loop.4, %join.3
  %k = phi i64 [ 0, %join.3 ], [ %k.next, %loop.4 ]
  %x2 = load i64, ptr %kept.loop, align 8
  store i64 8, ptr %kept.loop, align 8
  %k.next = add i64 %k, 1
  %more = icmp ult i64 %k.next, 3
  br i1 %more, label %loop.4, label %done.5

done.5:                                           ; preds = %loop.4
  %y0 = add i64 %x0, %x1
  %y1 = add i64 %y0, %x2
  ret i64 %y1
}

; Places that are not known: of one byte of many, of either array, of a copy of any length, and of a pointer that moves.
define internal fastcc i64 @"fills::places"(i64 noundef %a0) unnamed_addr #0 {
start:
  %kept.any = alloca [16 x i8], align 8
  %kept.either = alloca [8 x i8], align 8
  %kept.second = alloca [8 x i8], align 8
  %kept.length = alloca [8 x i8], align 8
  %kept.moved = alloca [8 x i8], align 8
  call void @llvm.memset.p0.i64(ptr %kept.any, i8 0, i64 16, i1 false)
  call void @llvm.memset.p0.i64(ptr %kept.either, i8 0, i64 8, i1 false)
  call void @llvm.memset.p0.i64(ptr %kept.second, i8 0, i64 8, i1 false)
  call void @llvm.memset.p0.i64(ptr %kept.length, i8 0, i64 8, i1 false)
  call void @llvm.memset.p0.i64(ptr %kept.moved, i8 0, i64 8, i1 false)
  %low = and i64 %a0, 7
  %any = getelementptr i8, ptr %kept.any, i64 %low
  store i64 1, ptr %any, align 1
  %x0 = load i64, ptr %kept.any, align 8
  %is.none = icmp eq i64 %a0, 0
  %either = select i1 %is.none, ptr %kept.either, ptr %kept.second
  store i64 256, ptr %either, align 8
  %x1 = load i64, ptr %kept.either, align 8
  call void @llvm.memcpy.p0.p0.i64(ptr %kept.length, ptr %either, i64 %low, i1 false)
  %x2 = load i64, ptr %kept.length, align 8
  br label %loop.1

loop.1:                                           ; preds = %loop.1, %start
  %p = phi ptr [ %kept.moved, %start ], [ %p.next, %loop.1 ]
  %k = phi i64 [ 0, %start ], [ %k.next, %loop.1 ]
  %s = phi i64 [ 0, %start ], [ %s.next, %loop.1 ]
  %b = load i8, ptr %p, align 1
  %b.wide = zext i8 %b to i64
  %s.next = add i64 %s, %b.wide
  %p.next = getelementptr i8, ptr %p, i64 1
  %k.next = add i64 %k, 1
  %more = icmp ult i64 %k.next, 8
  br i1 %more, label %loop.1, label %done.2

done.2:                                           ; preds = %loop.1
  %y0 = add i64 %x0, %x1
  %y1 = add i64 %y0, %x2
  %y2 = add i64 %y1, %s.next
  ret i64 %y2
}

; Copies: of which a written byte is read, or a zero; a number that is stored again, and one of which more is promised.
define internal fastcc i64 @"fills::copies"() unnamed_addr #0 {
start:
  %gone.copied = alloca [8 x i8], align 8
  %kept.copied = alloca [8 x i8], align 8
  %gone.stored = alloca [8 x i8], align 8
  %kept.promised = alloca [8 x i8], align 8
  %room = alloca [32 x i8], align 8
  call void @llvm.memset.p0.i64(ptr %gone.copied, i8 0, i64 8, i1 false)
  call void @llvm.memset.p0.i64(ptr %kept.copied, i8 0, i64 8, i1 false)
  call void @llvm.memset.p0.i64(ptr %gone.stored, i8 0, i64 8, i1 false)
  call void @llvm.memset.p0.i64(ptr %kept.promised, i8 0, i64 8, i1 false)
  store i32 3, ptr %gone.copied, align 8
  call void @llvm.memcpy.p0.p0.i64(ptr %room, ptr %gone.copied, i64 8, i1 false)
  %x0.n = load i32, ptr %room, align 8
  %x0 = zext i32 %x0.n to i64
  store i32 3, ptr %kept.copied, align 8
  %room.8 = getelementptr i8, ptr %room, i64 8
  call void @llvm.memmove.p0.p0.i64(ptr %room.8, ptr %kept.copied, i64 8, i1 false)
  %room.12 = getelementptr i8, ptr %room, i64 12
  %x1.n = load i32, ptr %room.12, align 4
  %x1 = zext i32 %x1.n to i64
  store i8 1, ptr %gone.stored, align 8
  %room.16 = getelementptr i8, ptr %room, i64 16
  %stored = load i64, ptr %gone.stored, align 8
  store i64 %stored, ptr %room.16, align 8
  %room.24 = getelementptr i8, ptr %room, i64 24
  %promised = load i64, ptr %kept.promised, align 8, !noundef !1
  store i64 %promised, ptr %room.24, align 8
  %x = add i64 %x0, %x1
  ret i64 %x
}

; Arrays that are handed to the functions above.
define internal fastcc i64 @"fills::calls"(i64 noundef %a0) unnamed_addr #0 {
start:
  %kept.read = alloca [8 x i8], align 8
  %gone.write = alloca [8 x i8], align 8
  %kept.if = alloca [8 x i8], align 8
  %kept.kept = alloca [8 x i8], align 8
  %kept.hand_on = alloca [16 x i8], align 8
  %kept.again = alloca [8 x i8], align 8
  %number = alloca [8 x i8], align 8
  %same = alloca [8 x i8], align 8
  %other = alloca [8 x i8], align 8
  %out = alloca [16 x i8], align 8
  %kept.half = alloca [16 x i8], align 8
  %gone.half = alloca [16 x i8], align 8
  call void @llvm.memset.p0.i64(ptr %kept.read, i8 0, i64 8, i1 false)
  call void @llvm.memset.p0.i64(ptr %gone.write, i8 0, i64 8, i1 false)
  call void @llvm.memset.p0.i64(ptr %kept.if, i8 0, i64 8, i1 false)
  call void @llvm.memset.p0.i64(ptr %kept.kept, i8 0, i64 8, i1 false)
  call void @llvm.memset.p0.i64(ptr %kept.hand_on, i8 0, i64 16, i1 false)
  call void @llvm.memset.p0.i64(ptr %kept.again, i8 0, i64 8, i1 false)
  call void @llvm.memset.p0.i64(ptr %kept.half, i8 0, i64 16, i1 false)
  call void @llvm.memset.p0.i64(ptr %gone.half, i8 0, i64 16, i1 false)
  %x0 = call fastcc i64 @"fills::read"(ptr noundef %kept.read)
  call fastcc void @"fills::write"(ptr noundef %gone.write)
  %x1 = load i64, ptr %gone.write, align 8
  call fastcc void @"fills::write_if"(ptr noundef %kept.if, i64 noundef %a0)
  %x2 = load i64, ptr %kept.if, align 8
  call fastcc void @"fills::keep"(ptr noundef %kept.kept, ptr noundef %number)
  call fastcc void @"fills::elsewhere"(ptr noundef %number)
  %x3 = call fastcc i64 @"fills::hand_on"(ptr noundef %kept.hand_on)
  %x4 = call fastcc i64 @"fills::again"(ptr noundef %kept.again, i64 noundef 2)
  store i64 20, ptr %same, align 8
  store i64 40, ptr %other, align 8
  %x5 = call fastcc i64 @"fills::both"(ptr noundef %same, ptr noundef %same)
  %x6 = call fastcc i64 @"fills::apart"(ptr noundef %same, ptr noundef %other)
  call fastcc void @"fills::give_low"(ptr noundef %out)
  %x7.n = load i32, ptr %out, align 8
  %x7 = zext i32 %x7.n to i64
  %out.8 = getelementptr i8, ptr %out, i64 8
  call fastcc void @"fills::give_high"(ptr noundef %out.8)
  %out.12 = getelementptr i8, ptr %out, i64 12
  %x8.n = load i32, ptr %out.12, align 4
  %x8 = zext i32 %x8.n to i64
  store i64 9, ptr %kept.half, align 8
  %x9 = call fastcc i64 @"fills::second_half"(ptr noundef %kept.half, ptr noundef %out)
  %half.8 = getelementptr i8, ptr %gone.half, i64 8
  store i64 11, ptr %half.8, align 8
  %xa = call fastcc i64 @"fills::second_half"(ptr noundef %gone.half, ptr noundef %out)
  %y0 = add i64 %x0, %x1
  %y1 = add i64 %y0, %x2
  %y2 = add i64 %y1, %x3
  %y3 = add i64 %y2, %x4
  %y4 = add i64 %y3, %x5
  %y5 = add i64 %y4, %x6
  %y6 = add i64 %y5, %x7
  %y7 = add i64 %y6, %x8
  %y8 = add i64 %y7, %x9
  %y9 = add i64 %y8, %xa
  ret i64 %y9
}

; A result of two cases, which the first byte tells apart: a number, or none, and then zeros are in its place.
define internal fastcc void @"fills::some_or_none"(ptr noundef %a0, i64 noundef %a1) unnamed_addr #0 {
start:
  %is.none = icmp eq i64 %a1, 0
  br i1 %is.none, label %none.1, label %some.2

none.1:                                           ; preds = %start
  %gone.none = getelementptr i8, ptr %a0, i64 8
  store i8 1, ptr %a0, align 8
  call void @llvm.memset.p0.i64(ptr %gone.none, i8 0, i64 8, i1 false)
  ret void

some.2:                                           ; preds = %start
  %number = getelementptr i8, ptr %a0, i64 8
  store i8 2, ptr %a0, align 8
  store i64 %a1, ptr %number, align 8
  ret void
}

; A number or zeros, and nothing tells which.
define internal fastcc void @"fills::number_or_zero"(ptr noundef %a0, i64 noundef %a1) unnamed_addr #0 {
start:
  %is.none = icmp eq i64 %a1, 0
  br i1 %is.none, label %none.1, label %some.2

none.1:                                           ; preds = %start
  %kept.none = getelementptr i8, ptr %a0, i64 8
  call void @llvm.memset.p0.i64(ptr %kept.none, i8 0, i64 8, i1 false)
  ret void

some.2:                                           ; preds = %start
  %number = getelementptr i8, ptr %a0, i64 8
  store i64 %a1, ptr %number, align 8
  ret void
}

; The number is read if there is one; if there is none; whichever the case is; and after the first byte was written anew.
define internal fastcc i64 @"fills::cases"(i64 noundef %a0) unnamed_addr #0 {
start:
  %gone.case = alloca [16 x i8], align 8
  %kept.other = alloca [16 x i8], align 8
  %gone.unasked = alloca [16 x i8], align 8
  %kept.anew = alloca [16 x i8], align 8
  call void @llvm.memset.p0.i64(ptr %gone.case, i8 0, i64 16, i1 false)
  call void @llvm.memset.p0.i64(ptr %kept.other, i8 0, i64 16, i1 false)
  call void @llvm.memset.p0.i64(ptr %gone.unasked, i8 0, i64 16, i1 false)
  call void @llvm.memset.p0.i64(ptr %kept.anew, i8 0, i64 16, i1 false)
  call fastcc void @"fills::some_or_none"(ptr noundef %gone.case, i64 noundef %a0)
  call fastcc void @"fills::number_or_zero"(ptr noundef %gone.unasked, i64 noundef %a0)
  %p0 = getelementptr i8, ptr %gone.case, i64 8
  %p1 = getelementptr i8, ptr %kept.other, i64 8
  %p2 = getelementptr i8, ptr %gone.unasked, i64 8
  %p3 = getelementptr i8, ptr %kept.anew, i64 8
  %x2 = load i64, ptr %p2, align 8
  %t0 = load i8, ptr %gone.case, align 8
  %is.some = icmp eq i8 %t0, 2
  br i1 %is.some, label %some.1, label %next.2

some.1:                                           ; preds = %start
  %x0 = load i64, ptr %p0, align 8
  br label %next.2

next.2:                                           ; preds = %some.1, %start
  %y0 = phi i64 [ 5, %start ], [ %x0, %some.1 ]
  %is.zero = icmp eq i64 %a0, 0
  br i1 %is.zero, label %asked.4, label %put.3

put.3:                                            ; preds = %next.2
  store i8 2, ptr %kept.other, align 8
  store i64 %a0, ptr %p1, align 8
  store i8 2, ptr %kept.anew, align 8
  store i64 %a0, ptr %p3, align 8
  br label %asked.4

asked.4:                                          ; preds = %put.3, %next.2
  %t1 = load i8, ptr %kept.other, align 8
  %is.other = icmp eq i8 %t1, 2
  br i1 %is.other, label %anew.6, label %other.5

other.5:                                          ; preds = %asked.4
  %x1 = load i64, ptr %p1, align 8
  br label %anew.6

anew.6:                                           ; preds = %other.5, %asked.4
  %y1 = phi i64 [ 7, %asked.4 ], [ %x1, %other.5 ]
  %t3 = load i8, ptr %kept.anew, align 8
  store i8 9, ptr %kept.anew, align 8
  %is.anew = icmp eq i8 %t3, 2
  br i1 %is.anew, label %end.8, label %read.7

read.7:                                           ; preds = %anew.6
  %x3 = load i64, ptr %p3, align 8
  br label %end.8

end.8:                                            ; preds = %read.7, %anew.6
  %y3 = phi i64 [ 11, %anew.6 ], [ %x3, %read.7 ]
  %s0 = add i64 %y0, %y1
  %s1 = add i64 %s0, %x2
  %s2 = add i64 %s1, %y3
  ret i64 %s2
}

; Everything above; and an array of its own, which no zero is read of either.
define i64 @dfu_fills_all(ptr %a0, i64 %a1) #0 {
start:
  %gone.export = alloca [8 x i8], align 8
  call void @llvm.memset.p0.i64(ptr %gone.export, i8 0, i64 8, i1 false)
  store i64 1000, ptr %gone.export, align 8
  %x0 = load i64, ptr %gone.export, align 8
  call fastcc void @"fills::to_c"(ptr noundef %a0)
  %x1 = call fastcc i64 @"fills::bytes"()
  %x2 = call fastcc i64 @"fills::ways"(i64 noundef %a1)
  %x3 = call fastcc i64 @"fills::places"(i64 noundef %a1)
  %x4 = call fastcc i64 @"fills::copies"()
  %x5 = call fastcc i64 @"fills::calls"(i64 noundef %a1)
  %y0 = add i64 %x0, %x1
  %y1 = add i64 %y0, %x2
  %y2 = add i64 %y1, %x3
  %y3 = add i64 %y2, %x4
  %y4 = add i64 %y3, %x5
  %x6 = call fastcc i64 @"fills::cases"(i64 noundef %a1)
  %y5 = add i64 %y4, %x6
  ret i64 %y5
}
