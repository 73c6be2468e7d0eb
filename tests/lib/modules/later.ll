declare void @llvm.memcpy.p0.p0.i64(ptr noalias writeonly captures(none), ptr noalias readonly captures(none), i64, i1 immarg) #1
declare void @llvm.lifetime.start.p0(ptr captures(none)) #1
declare void @llvm.lifetime.end.p0(ptr captures(none)) #1
declare { i64, i1 } @llvm.umul.with.overflow.i64(i64, i64) #1
declare i8 @llvm.umin.i8(i8, i8) #1
declare i64 @llvm.umin.i64(i64, i64) #1
declare i16 @llvm.umax.i16(i16, i16) #1
declare i32 @llvm.umax.i32(i32, i32) #1
declare i64 @llvm.umax.i64(i64, i64) #1
declare i8 @llvm.uadd.sat.i8(i8, i8) #1
declare i16 @llvm.uadd.sat.i16(i16, i16) #1
declare i32 @llvm.uadd.sat.i32(i32, i32) #1
declare i64 @llvm.uadd.sat.i64(i64, i64) #1
declare i8 @llvm.usub.sat.i8(i8, i8) #1
declare i16 @llvm.usub.sat.i16(i16, i16) #1
declare i32 @llvm.usub.sat.i32(i32, i32) #1
declare i64 @llvm.usub.sat.i64(i64, i64) #1
