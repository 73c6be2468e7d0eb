; Copies that a call is handed. originals.py hands the original to each call whose result is called handed, and to no other one.

; The record that the others copy: a byte, 4 bytes and 2.
define internal fastcc i64 @"originals::read"(ptr noundef %a0) unnamed_addr #0 {
start:
  %x = load i8, ptr %a0, align 4
  %p = getelementptr i8, ptr %a0, i64 4
  %y = load i32, ptr %p, align 4
  %q = getelementptr i8, ptr %a0, i64 8
  %z = load i16, ptr %q, align 4
  %x.wide = zext i8 %x to i64
  %y.wide = zext i32 %y to i64
  %z.wide = zext i16 %z to i64
  %y.high = shl i64 %y.wide, 8
  %z.high = shl i64 %z.wide, 40
  %xy = or i64 %x.wide, %y.high
  %xyz = or i64 %xy, %z.high
  ret i64 %xyz
}

; It writes to another place before it reads.
define internal fastcc i64 @"originals::write_and_read"(ptr noundef %a0, ptr noundef %a1) unnamed_addr #0 {
start:
  %p = getelementptr i8, ptr %a1, i64 4
  store i32 77, ptr %p, align 4
  %r = call fastcc i64 @"originals::read"(ptr noundef %a0)
  ret i64 %r
}

; A copy of all that is read, over zeros; one of another place; and one that is changed.
define internal fastcc i64 @"originals::copies"(ptr noundef %a0) unnamed_addr #0 {
start:
  %copy = alloca [12 x i8], align 4
  %moved = alloca [12 x i8], align 4
  %other = alloca [12 x i8], align 4
  %at.8 = getelementptr i8, ptr %copy, i64 8
  store i32 0, ptr %at.8, align 4
  %b = load i8, ptr %a0, align 4
  %b.wide = zext i8 %b to i32
  store i32 %b.wide, ptr %copy, align 4
  %from.4 = getelementptr i8, ptr %a0, i64 4
  %w = load i32, ptr %from.4, align 4
  %at.4 = getelementptr i8, ptr %copy, i64 4
  store i32 %w, ptr %at.4, align 4
  %from.8 = getelementptr i8, ptr %a0, i64 8
  %h = load i16, ptr %from.8, align 4
  store i16 %h, ptr %at.8, align 4
  %handed.copy = call fastcc i64 @"originals::read"(ptr noundef nonnull readonly %copy)
  store i8 %b, ptr %moved, align 4
  %moved.4 = getelementptr i8, ptr %moved, i64 4
  %from.0 = load i32, ptr %a0, align 4
  store i32 %from.0, ptr %moved.4, align 4
  %moved.8 = getelementptr i8, ptr %moved, i64 8
  store i16 %h, ptr %moved.8, align 4
  %same.y = call fastcc i64 @"originals::read"(ptr noundef %moved)
  call void @llvm.memcpy.p0.p0.i64(ptr %other, ptr %a0, i64 12, i1 false)
  store i8 9, ptr %other, align 4
  %same.z = call fastcc i64 @"originals::read"(ptr noundef %other)
  %xy = add i64 %handed.copy, %same.y
  %xyz = add i64 %xy, %same.z
  ret i64 %xyz
}

; The original is written while the copy is read; and the original may be what C has.
define internal fastcc i64 @"originals::written"(ptr noundef %a0) unnamed_addr #0 {
start:
  %copy = alloca [12 x i8], align 4
  call void @llvm.memcpy.p0.p0.i64(ptr %copy, ptr %a0, i64 12, i1 false)
  %same.x = call fastcc i64 @"originals::write_and_read"(ptr noundef %copy, ptr noundef %a0)
  ret i64 %same.x
}

define internal fastcc i64 @"originals::of_c"(ptr noundef %a0) unnamed_addr #0 {
start:
  %copy = alloca [12 x i8], align 4
  call void @llvm.memcpy.p0.p0.i64(ptr %copy, ptr %a0, i64 12, i1 false)
  %same.x = call fastcc i64 @"originals::read"(ptr noundef %copy)
  ret i64 %same.x
}

; An original that is less aligned than the copy, and one with fewer bytes.
define internal fastcc i64 @"originals::odd"(ptr noundef %a0) unnamed_addr #0 {
start:
  %copy = alloca [12 x i8], align 4
  call void @llvm.memcpy.p0.p0.i64(ptr %copy, ptr %a0, i64 12, i1 false)
  %same.x = call fastcc i64 @"originals::read"(ptr noundef %copy)
  ret i64 %same.x
}

define i64 @dfu_originals_copies(ptr %a0) #0 {
start:
  %record = alloca [12 x i8], align 8
  %changed = alloca [12 x i8], align 4
  %odd = alloca [16 x i8], align 4
  call void @llvm.memmove.p0.p0.i64(ptr %record, ptr %a0, i64 12, i1 false)
  call void @llvm.memmove.p0.p0.i64(ptr %changed, ptr %a0, i64 12, i1 false)
  %odd.1 = getelementptr i8, ptr %odd, i64 1
  call void @llvm.memmove.p0.p0.i64(ptr %odd.1, ptr %a0, i64 12, i1 false)
  %x = call fastcc i64 @"originals::copies"(ptr noundef %record)
  %y = call fastcc i64 @"originals::written"(ptr noundef %changed)
  %z = call fastcc i64 @"originals::of_c"(ptr noundef %a0)
  %o = call fastcc i64 @"originals::odd"(ptr noundef %odd.1)
  %after = call fastcc i64 @"originals::read"(ptr noundef %changed)
  %xy = add i64 %x, %y
  %xyz = add i64 %xy, %z
  %xyzo = add i64 %xyz, %o
  %all = add i64 %xyzo, %after
  ret i64 %all
}

; A sum over so many bytes; one that reads the first byte besides; and one that writes to another place in each turn.
define internal fastcc i64 @"originals::sum"(ptr noundef %a0, i64 noundef %a1) unnamed_addr #0 {
start:
  br label %each.1

each.1:                                           ; preds = %byte.2, %start
  %i = phi i64 [ 0, %start ], [ %i.next, %byte.2 ]
  %sum = phi i64 [ 0, %start ], [ %sum.next, %byte.2 ]
  %is.all = icmp eq i64 %i, %a1
  br i1 %is.all, label %done.3, label %byte.2

byte.2:                                           ; preds = %each.1
  %p = getelementptr i8, ptr %a0, i64 %i
  %x = load i8, ptr %p, align 1
  %x.wide = zext i8 %x to i64
  %twice = shl i64 %sum, 1
  %sum.next = add i64 %twice, %x.wide
  %i.next = add i64 %i, 1
  br label %each.1

done.3:                                           ; preds = %each.1
  ret i64 %sum
}

define internal fastcc i64 @"originals::sum_and_first"(ptr noundef %a0, i64 noundef %a1) unnamed_addr #0 {
start:
  %first = load i8, ptr %a0, align 1
  %first.wide = zext i8 %first to i64
  br label %each.1

each.1:                                           ; preds = %byte.2, %start
  %i = phi i64 [ 0, %start ], [ %i.next, %byte.2 ]
  %sum = phi i64 [ %first.wide, %start ], [ %sum.next, %byte.2 ]
  %is.all = icmp eq i64 %i, %a1
  br i1 %is.all, label %done.3, label %byte.2

byte.2:                                           ; preds = %each.1
  %p = getelementptr i8, ptr %a0, i64 %i
  %x = load i8, ptr %p, align 1
  %x.wide = zext i8 %x to i64
  %sum.next = add i64 %sum, %x.wide
  %i.next = add i64 %i, 1
  br label %each.1

done.3:                                           ; preds = %each.1
  ret i64 %sum
}

define internal fastcc i64 @"originals::sum_and_clear"(ptr noundef %a0, i64 noundef %a1, ptr noundef %a2) unnamed_addr #0 {
start:
  br label %each.1

each.1:                                           ; preds = %byte.2, %start
  %i = phi i64 [ 0, %start ], [ %i.next, %byte.2 ]
  %sum = phi i64 [ 0, %start ], [ %sum.next, %byte.2 ]
  %is.all = icmp eq i64 %i, %a1
  br i1 %is.all, label %done.3, label %byte.2

byte.2:                                           ; preds = %each.1
  store i32 0, ptr %a2, align 1
  %p = getelementptr i8, ptr %a0, i64 %i
  %x = load i8, ptr %p, align 1
  %x.wide = zext i8 %x to i64
  %sum.next = add i64 %sum, %x.wide
  %i.next = add i64 %i, 1
  br label %each.1

done.3:                                           ; preds = %each.1
  ret i64 %sum
}

; A buffer of what C has: of so many bytes, of another number, with what reads the first one besides, and with what may write them.
define i64 @dfu_originals_buffers(ptr %a0, i64 %a1, i64 %a2) #0 {
start:
  %buffer = alloca [16 x i8], align 1
  %from = getelementptr i8, ptr %a0, i64 2
  call void @llvm.memset.p0.i64(ptr %buffer, i8 0, i64 16, i1 false)
  call void @llvm.memcpy.p0.p0.i64(ptr %buffer, ptr %from, i64 %a1, i1 false)
  %handed.buffer = call fastcc i64 @"originals::sum"(ptr noundef nonnull readonly %buffer, i64 noundef %a1)
  call void @llvm.memcpy.p0.p0.i64(ptr %buffer, ptr %from, i64 %a2, i1 false)
  %same.y = call fastcc i64 @"originals::sum"(ptr noundef %buffer, i64 noundef %a1)
  call void @llvm.memcpy.p0.p0.i64(ptr %buffer, ptr %from, i64 %a2, i1 false)
  store i8 1, ptr %a0, align 1
  %same.s = call fastcc i64 @"originals::sum"(ptr noundef %buffer, i64 noundef %a2)
  call void @llvm.memcpy.p0.p0.i64(ptr %buffer, ptr %from, i64 %a1, i1 false)
  %same.z = call fastcc i64 @"originals::sum_and_first"(ptr noundef %buffer, i64 noundef %a1)
  call void @llvm.memcpy.p0.p0.i64(ptr %buffer, ptr %from, i64 %a1, i1 false)
  %same.o = call fastcc i64 @"originals::sum_and_clear"(ptr noundef %buffer, i64 noundef %a1, ptr noundef %from)
  %xy = add i64 %handed.buffer, %same.y
  %ys = add i64 %xy, %same.s
  %xyz = add i64 %ys, %same.z
  %all = add i64 %xyz, %same.o
  ret i64 %all
}
