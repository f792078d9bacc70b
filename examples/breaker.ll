; ModuleID = 'breaker.c'
source_filename = "breaker.c"
target datalayout = "e-m:e-p270:32:32-p271:32:32-p272:64:64-i64:64-f80:128-n8:16:32:64-S128"
target triple = "x86_64-pc-linux-gnu"

%struct.span = type { i32, i32 }

; Function Attrs: nofree noinline norecurse nosync nounwind readonly uwtable
define dso_local i32 @characters(i8* nocapture noundef readonly %text, i64 %span.coerce) local_unnamed_addr #0 {
entry:
  %span.sroa.0.0.extract.trunc = trunc i64 %span.coerce to i32
  %span.sroa.2.0.extract.shift = lshr i64 %span.coerce, 32
  %span.sroa.2.0.extract.trunc = trunc i64 %span.sroa.2.0.extract.shift to i32
  %cmp6 = icmp ult i32 %span.sroa.0.0.extract.trunc, %span.sroa.2.0.extract.trunc
  br i1 %cmp6, label %for.body.preheader, label %for.cond.cleanup

for.body.preheader:                               ; preds = %entry
  %0 = and i64 %span.coerce, 4294967295
  br label %for.body

for.cond.cleanup:                                 ; preds = %for.body, %entry
  %count.0.lcssa = phi i32 [ 0, %entry ], [ %add, %for.body ]
  ret i32 %count.0.lcssa

for.body:                                         ; preds = %for.body.preheader, %for.body
  %indvars.iv = phi i64 [ %0, %for.body.preheader ], [ %indvars.iv.next, %for.body ]
  %count.07 = phi i32 [ 0, %for.body.preheader ], [ %add, %for.body ]
  %arrayidx = getelementptr inbounds i8, i8* %text, i64 %indvars.iv
  %1 = load i8, i8* %arrayidx, align 1, !tbaa !5
  %call = call fastcc i32 @begins(i8 noundef signext %1)
  %add = add i32 %call, %count.07
  %indvars.iv.next = add nuw nsw i64 %indvars.iv, 1
  %exitcond.not = icmp eq i64 %indvars.iv.next, %span.sroa.2.0.extract.shift
  br i1 %exitcond.not, label %for.cond.cleanup, label %for.body, !llvm.loop !8
}

; Function Attrs: mustprogress nofree noinline norecurse nosync nounwind readnone uwtable willreturn
define internal fastcc i32 @begins(i8 noundef signext %byte) unnamed_addr #1 {
entry:
  %0 = and i8 %byte, -64
  %cmp = icmp ne i8 %0, -128
  %conv1 = zext i1 %cmp to i32
  ret i32 %conv1
}

; Function Attrs: nofree noinline norecurse nosync nounwind readonly uwtable
define dso_local i32 @line_end(i8* nocapture noundef readonly %text, i32 noundef %length, i32 noundef %from, i32 noundef %width) local_unnamed_addr #0 {
entry:
  %cmp38 = icmp ult i32 %from, %length
  br i1 %cmp38, label %for.body.preheader, label %cleanup

for.body.preheader:                               ; preds = %entry
  %0 = zext i32 %from to i64
  %wide.trip.count = zext i32 %length to i64
  br label %for.body

for.body:                                         ; preds = %for.body.preheader, %for.inc
  %indvars.iv = phi i64 [ %0, %for.body.preheader ], [ %indvars.iv.next, %for.inc ]
  %space.040 = phi i32 [ %from, %for.body.preheader ], [ %space.1, %for.inc ]
  %count.039 = phi i32 [ 0, %for.body.preheader ], [ %count.1, %for.inc ]
  %arrayidx = getelementptr inbounds i8, i8* %text, i64 %indvars.iv
  %1 = load i8, i8* %arrayidx, align 1, !tbaa !5
  %cmp1 = icmp eq i8 %1, 32
  br i1 %cmp1, label %land.lhs.true, label %if.end

land.lhs.true:                                    ; preds = %for.body
  %sub = add nuw i64 %indvars.iv, 4294967295
  %idxprom3 = and i64 %sub, 4294967295
  %arrayidx4 = getelementptr inbounds i8, i8* %text, i64 %idxprom3
  %2 = load i8, i8* %arrayidx4, align 1, !tbaa !5
  %cmp6.not = icmp eq i8 %2, 32
  %3 = trunc i64 %indvars.iv to i32
  %spec.select = select i1 %cmp6.not, i32 %space.040, i32 %3
  br label %if.end

if.end:                                           ; preds = %land.lhs.true, %for.body
  %space.1 = phi i32 [ %space.040, %for.body ], [ %spec.select, %land.lhs.true ]
  %call = call fastcc i32 @begins(i8 noundef signext %1)
  %tobool.not = icmp eq i32 %call, 0
  br i1 %tobool.not, label %for.inc, label %land.lhs.true10

land.lhs.true10:                                  ; preds = %if.end
  %inc = add i32 %count.039, 1
  %cmp11 = icmp eq i32 %count.039, %width
  br i1 %cmp11, label %if.then13, label %for.inc

if.then13:                                        ; preds = %land.lhs.true10
  %4 = trunc i64 %indvars.iv to i32
  %cmp14 = icmp ugt i32 %space.1, %from
  %cond = select i1 %cmp14, i32 %space.1, i32 %4
  br label %cleanup

for.inc:                                          ; preds = %if.end, %land.lhs.true10
  %count.1 = phi i32 [ %inc, %land.lhs.true10 ], [ %count.039, %if.end ]
  %indvars.iv.next = add nuw nsw i64 %indvars.iv, 1
  %exitcond.not = icmp eq i64 %indvars.iv.next, %wide.trip.count
  br i1 %exitcond.not, label %cleanup, label %for.body, !llvm.loop !10

cleanup:                                          ; preds = %for.inc, %entry, %if.then13
  %spec.select36 = phi i32 [ %cond, %if.then13 ], [ %length, %entry ], [ %length, %for.inc ]
  ret i32 %spec.select36
}

; Function Attrs: nofree noinline norecurse nosync nounwind uwtable
define dso_local i32 @break_lines(i8* nocapture noundef readonly %text, i32 noundef %length, i32 noundef %width, %struct.span* nocapture noundef writeonly %lines, i32 noundef %most) local_unnamed_addr #2 {
entry:
  %cmp = icmp ne i32 %width, 0
  %cmp139 = icmp ne i32 %most, 0
  %or.cond = and i1 %cmp, %cmp139
  br i1 %or.cond, label %while.cond2.preheader.preheader, label %cleanup

while.cond2.preheader.preheader:                  ; preds = %entry
  %wide.trip.count = zext i32 %most to i64
  br label %while.cond2.preheader

while.cond2.preheader:                            ; preds = %while.cond2.preheader.preheader, %if.end10
  %indvars.iv = phi i64 [ 0, %while.cond2.preheader.preheader ], [ %indvars.iv.next, %if.end10 ]
  %from.040 = phi i32 [ 0, %while.cond2.preheader.preheader ], [ %call, %if.end10 ]
  %cmp336 = icmp ult i32 %from.040, %length
  br i1 %cmp336, label %land.rhs, label %while.end

land.rhs:                                         ; preds = %while.cond2.preheader, %while.body6
  %from.137 = phi i32 [ %inc, %while.body6 ], [ %from.040, %while.cond2.preheader ]
  %idxprom = zext i32 %from.137 to i64
  %arrayidx = getelementptr inbounds i8, i8* %text, i64 %idxprom
  %0 = load i8, i8* %arrayidx, align 1, !tbaa !5
  %cmp4 = icmp eq i8 %0, 32
  br i1 %cmp4, label %while.body6, label %while.end

while.body6:                                      ; preds = %land.rhs
  %inc = add i32 %from.137, 1
  %exitcond.not = icmp eq i32 %inc, %length
  br i1 %exitcond.not, label %while.end, label %land.rhs, !llvm.loop !11

while.end:                                        ; preds = %land.rhs, %while.body6, %while.cond2.preheader
  %from.1.lcssa = phi i32 [ %from.040, %while.cond2.preheader ], [ %from.137, %land.rhs ], [ %length, %while.body6 ]
  %cmp7 = icmp eq i32 %from.1.lcssa, %length
  br i1 %cmp7, label %cleanup.loopexit.split.loop.exit46, label %if.end10

if.end10:                                         ; preds = %while.end
  %from13 = getelementptr inbounds %struct.span, %struct.span* %lines, i64 %indvars.iv, i32 0
  store i32 %from.1.lcssa, i32* %from13, align 4, !tbaa !12
  %call = call i32 @line_end(i8* noundef %text, i32 noundef %length, i32 noundef %from.1.lcssa, i32 noundef %width)
  %to = getelementptr inbounds %struct.span, %struct.span* %lines, i64 %indvars.iv, i32 1
  store i32 %call, i32* %to, align 4, !tbaa !15
  %indvars.iv.next = add nuw nsw i64 %indvars.iv, 1
  %exitcond45.not = icmp eq i64 %indvars.iv.next, %wide.trip.count
  br i1 %exitcond45.not, label %cleanup, label %while.cond2.preheader, !llvm.loop !16

cleanup.loopexit.split.loop.exit46:               ; preds = %while.end
  %1 = trunc i64 %indvars.iv to i32
  br label %cleanup

cleanup:                                          ; preds = %cleanup.loopexit.split.loop.exit46, %if.end10, %entry
  %retval.0 = phi i32 [ 0, %entry ], [ %1, %cleanup.loopexit.split.loop.exit46 ], [ %most, %if.end10 ]
  ret i32 %retval.0
}

attributes #0 = { nofree noinline norecurse nosync nounwind readonly uwtable "frame-pointer"="none" "min-legal-vector-width"="0" "no-trapping-math"="true" "stack-protector-buffer-size"="8" "target-cpu"="x86-64" "target-features"="+cx8,+fxsr,+mmx,+sse,+sse2,+x87" "tune-cpu"="generic" }
attributes #1 = { mustprogress nofree noinline norecurse nosync nounwind readnone uwtable willreturn "frame-pointer"="none" "min-legal-vector-width"="0" "no-trapping-math"="true" "stack-protector-buffer-size"="8" "target-cpu"="x86-64" "target-features"="+cx8,+fxsr,+mmx,+sse,+sse2,+x87" "tune-cpu"="generic" }
attributes #2 = { nofree noinline norecurse nosync nounwind uwtable "frame-pointer"="none" "min-legal-vector-width"="0" "no-trapping-math"="true" "stack-protector-buffer-size"="8" "target-cpu"="x86-64" "target-features"="+cx8,+fxsr,+mmx,+sse,+sse2,+x87" "tune-cpu"="generic" }

!llvm.module.flags = !{!0, !1, !2, !3}
!llvm.ident = !{!4}

!0 = !{i32 1, !"wchar_size", i32 4}
!1 = !{i32 7, !"PIC Level", i32 2}
!2 = !{i32 7, !"PIE Level", i32 2}
!3 = !{i32 7, !"uwtable", i32 1}
!4 = !{!"Debian clang version 14.0.6"}
!5 = !{!6, !6, i64 0}
!6 = !{!"omnipotent char", !7, i64 0}
!7 = !{!"Simple C/C++ TBAA"}
!8 = distinct !{!8, !9}
!9 = !{!"llvm.loop.unroll.disable"}
!10 = distinct !{!10, !9}
!11 = distinct !{!11, !9}
!12 = !{!13, !14, i64 0}
!13 = !{!"span", !14, i64 0, !14, i64 4}
!14 = !{!"int", !6, i64 0}
!15 = !{!13, !14, i64 4}
!16 = distinct !{!16, !9}
