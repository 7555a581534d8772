<?xml version="1.0" encoding="UTF-8"?>
<xsl:stylesheet version="1.0" xmlns:xsl="http://www.w3.org/1999/XSL/Transform"
    xmlns:l="lines" xmlns:xccdf-1.2="http://checklists.nist.gov/xccdf/1.2">
  <xsl:import href="../lines.xsl"/>

  <xsl:template match="/" mode="witnesses">
    <xsl:for-each select="//xccdf-1.2:Group/xccdf-1.2:title">
      <xsl:variable name="title" select="."/>
      <xsl:for-each select="..//xccdf-1.2:Rule[@severity = 'medium']">
        <xsl:variable name="rule" select="."/>
        <!-- A rule has one fix at most, and one rationale of one text. -->
        <xsl:for-each select="xccdf-1.2:rationale/text()">
          <witness>
            <xccdf-1.2:Group>
              <xsl:copy-of select="$title"/>
              <xccdf-1.2:Rule>
                <xsl:apply-templates select="$rule/@severity" mode="shown"/>
                <xsl:copy-of select="$rule/xccdf-1.2:reference"/>
                <xsl:apply-templates select="$rule//@complexity" mode="shown"/>
                <xccdf-1.2:rationale>
                  <xsl:copy-of select="."/>
                </xccdf-1.2:rationale>
              </xccdf-1.2:Rule>
            </xccdf-1.2:Group>
          </witness>
        </xsl:for-each>
      </xsl:for-each>
    </xsl:for-each>
  </xsl:template>
</xsl:stylesheet>
